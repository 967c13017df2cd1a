"""A second evaluator of docs/signal.md, written from that page by somebody who had not read the front end.

It runs the constructs of the page themselves, instant by instant, and makes no kernel.
"""
