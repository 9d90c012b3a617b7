;; header-cut-off: a header of six bytes
(assert_malformed (module binary "\00\61\73\6d\01\00") "unexpected end")
