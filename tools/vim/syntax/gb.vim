" Colours for the notation of build.gb and settings.gb (docs/REFERENCE.md, "The notation").

if exists("b:current_syntax")
  finish
endif

syntax case match
syntax iskeyword @,48-57,_,-

syntax match gbStray +[^[:space:][:alpha:]{}()\[\],.:="]\{1,}+
syntax match gbWord "\<\a\k*\>"

syntax keyword gbStatement register named nextgroup=gbTask skipwhite
syntax keyword gbStatement property set convention unset disallowChanges nextgroup=gbProperty skipwhite
syntax keyword gbStatement defaultTasks include exclude
syntax keyword gbClause input inputFiles outputFile outputDir nextgroup=gbProperty skipwhite
syntax keyword gbClause incremental skipWhenEmpty nameOnly from dependsOn mustRunAfter finalizedBy
syntax keyword gbClause doFirst doLast onlyIf enabled upToDateWhen is
syntax keyword gbKind copyFiles replaceTokens keepLines sums wordIndex concat writeText addFile printLine fail
syntax keyword gbFunction upper append split join child nonEmpty output isTrue equals
syntax match gbStep "\.\s*\zs\%(map\|flatMap\|zip\|orElse\)\>"
syntax keyword gbValue dir file buildDir gradleProperty task
syntax keyword gbFlag true false

syntax match gbTask "\a\k*" contained
syntax match gbProperty "\a\k*" contained
syntax match gbEscape +\\["\\nt]+ contained
syntax match gbBadEscape +\\[^"\\nt]+ contained
syntax region gbText start=+"+ skip=+\\.+ end=+"+ oneline contains=gbEscape,gbBadEscape
syntax match gbComment "//.*$"

highlight default link gbStatement Statement
highlight default link gbClause Keyword
highlight default link gbKind Function
highlight default link gbFunction Function
highlight default link gbStep Operator
highlight default link gbValue Type
highlight default link gbFlag Boolean
highlight default link gbTask Identifier
highlight default link gbProperty Identifier
highlight default link gbEscape SpecialChar
highlight default link gbBadEscape Error
highlight default link gbText String
highlight default link gbComment Comment
highlight default link gbStray Error

let b:current_syntax = "gb"
