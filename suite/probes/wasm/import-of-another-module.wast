;; import-of-another-module: putchar of a module other than env
(assert_unlinkable (module (import "host" "putchar" (func $putchar (param i32)))
(func (export "main") (call 0 (i32.const 65)))) "unknown import")
