" Indents programs of sigc: bars below the bar of `(|`, locals two deeper than `where`, `end` below `where`.
if exists("b:did_indent")
  finish
endif
let b:did_indent = 1

setlocal indentexpr=SignalIndent(v:lnum)
setlocal indentkeys=o,O,0\|,0=where,0=end,0=process,0=pragmas,!^F
let b:undo_indent = "setlocal indentexpr< indentkeys<"

if exists("*SignalIndent")
  finish
endif

" Where the innermost block that is open before a line begins: [line, column], [0, 0] where none is.
function s:Open(start, end, line)
  call cursor(a:line, 1)
  return searchpairpos(a:start, '', a:end, 'bnW', 'synIDattr(synID(line("."), col("."), 0), "name") =~ "Comment"')
endfunction

" The indent of the process that a line stands in: that of the equations before it.
function s:OfEquations(line)
  call cursor(a:line, 1)
  if search('|)', 'bW') == 0
    return 0
  endif
  let l:begun = searchpairpos('(|', '', '|)', 'bnW')
  return l:begun[0] > 0 ? indent(l:begun[0]) : 0
endfunction

function SignalIndent(line)
  if synIDattr(synID(a:line, 1, 0), "name") =~ "Comment"
    return -1
  endif
  let l:text = getline(a:line)
  let l:block = s:Open('(|', '|)', a:line)
  let l:where = s:Open('\<where\>', '\<end\>', a:line)
  if l:text =~ '^\s*|'
    return l:block[0] > 0 ? l:block[1] : indent(prevnonblank(a:line - 1))
  elseif l:text =~ '^\s*where\>'
    return s:OfEquations(a:line)
  elseif l:text =~ '^\s*end\>'
    return l:where[0] > 0 ? indent(l:where[0]) : 0
  elseif l:block[0] > 0
    return l:block[1] + 3
  elseif l:text =~ '^\s*(|' || l:text =~ '^\s*pragmas\>'
    return indent(search('\<process\>', 'bnW'))
  endif
  return l:where[0] > 0 ? indent(l:where[0]) + 2 : 0
endfunction
