" `:make` checks the program in the buffer by sigc-caret: the one on the PATH, or that of the folder that this stands in.
" Each refusal is an error to jump to, also one without a place; the lines around it, hints and mends, stay in the list.
let current_compiler = "sigc"
let s:caret = executable("sigc-caret") ? "sigc-caret" : fnamemodify(resolve(expand("<sfile>:p")), ":h:h:h:h") . "/sigc-caret"
execute "CompilerSet makeprg=" . escape(shellescape(s:caret) . " check --lint %:S", ' \|"')
CompilerSet errorformat=%f:%l:%c:\ %trror:\ %m,%f:%l:%c:\ %tarning:\ %m,%f:%l:%c:\ %tote:\ %m,%trror:\ %m,%Esigc:\ %m,%Esigc-caret:\ %m,%-Gaccepted
