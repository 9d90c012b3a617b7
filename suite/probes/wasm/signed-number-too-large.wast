;; signed-number-too-large: a constant of five bytes whose last bits aren't the sign's
(assert_malformed (module binary "\00\61\73\6d\01\00\00\00\01\08\02\60\01\7f\00\60\00\00\02\0f\01\03\65\6e\76\07\70\75\74\63\68\61\72\00\00\03\02\01\01\07\08\01\04\6d\61\69\6e\00\01\0a\0c\01\0a\00\41\c1\80\80\80\10\10\00\0b") "integer too large")
