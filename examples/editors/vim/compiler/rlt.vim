" Vim compiler file for rlt: `:compiler rlt`, then `:make src`; the quickfix list holds the findings and what wasn't judged.
if exists('current_compiler')
  finish
endif
let current_compiler = 'rlt'

CompilerSet makeprg=rlt\ --format\ concise\ --quiet\ $*
" findings; then what wasn't judged or looked at, without a place; nothing else
CompilerSet errorformat=%f:%l:%c:\ %m,%+Gnot\ %.%#,%-G%.%#
