" Vim takes *.sig for Lambda Prolog or SML by a rule of its own. So the kind is set and not only proposed, and what the
" plugin of the other kind has left is forgotten.
autocmd BufRead,BufNewFile *.sig unlet! b:did_ftplugin b:did_indent b:current_syntax | set filetype=signal
