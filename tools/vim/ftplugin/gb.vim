" Comments and names of the notation, :make, which goes to the line of a fault, and gq and =, which format.

if exists("b:did_ftplugin")
  finish
endif
let b:did_ftplugin = 1

setlocal comments=:// commentstring=//\ %s iskeyword=@,48-57,_,-
setlocal makeprg=gb errorformat=%f:%l:\ %tarning:\ %m,%f:%l:\ %n\ %m,REFUSED\ %n\ %m\ %f:%l,%-G%.%#
" What gb_ask reads from its input it reads as a script.
if expand("%:t") !=# "settings.gb"
  setlocal formatprg=gb_ask\ fmt\ - equalprg=gb_ask\ fmt\ -
endif
let b:undo_ftplugin = "setlocal comments< commentstring< iskeyword< makeprg< errorformat<"
let b:undo_ftplugin .= " formatprg< equalprg<"
