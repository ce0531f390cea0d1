if exists('b:did_ftplugin')
  finish
endif
let b:did_ftplugin = 1

setlocal commentstring=#\ %s comments=:# iskeyword=@,48-57,_,192-255
setlocal expandtab shiftwidth=2 softtabstop=2
" % jumps between brackets.
setlocal matchpairs=(:),[:],{:}
compiler lt

let b:undo_ftplugin = 'setlocal commentstring< comments< iskeyword< expandtab< shiftwidth<'
      \ . ' softtabstop< matchpairs< makeprg< errorformat<'
