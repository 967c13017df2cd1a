" How programs of sigc are edited: comments, pairs and `:make`.
if exists("b:did_ftplugin")
  finish
endif
let b:did_ftplugin = 1

setlocal commentstring=%\ %s\ %
setlocal comments=
setlocal formatoptions-=t
setlocal matchpairs=(:),{:}
let b:match_words = '(|:|),\<process\>:\<where\>:\<end\>'
compiler sigc

let b:undo_ftplugin = "setlocal commentstring< comments< formatoptions< matchpairs< makeprg< errorformat< | unlet! b:match_words"
