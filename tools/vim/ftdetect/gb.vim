" The scripts of gb. All of this folder is a package: see docs/GUIDE.md (editors)
autocmd BufNewFile,BufRead *.gb setfiletype gb
