" :make checks the file, and jumps to the place that is refused.
if exists('current_compiler')
  finish
endif
let current_compiler = 'lt'

" editor/check stands two folders above this file's.
let s:check = fnamemodify(resolve(expand('<sfile>:p')), ':h:h:h') . '/check'
execute 'CompilerSet makeprg=' . escape(shellescape(s:check) . ' %:S', ' \|"')
CompilerSet errorformat=%f:%l:%c:\ %m,%Eread\ fault:\ %f,%-Gusage:\ %.%#,%-Glt:\ this\ build%.%#
