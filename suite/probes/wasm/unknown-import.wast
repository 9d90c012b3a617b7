;; unknown-import: an import that the host doesn't have
(assert_unlinkable (module
(import "env" "putchar" (func $putchar (param i32)))
(import "env" "putint" (func (param i32)))
(func (export "main") (call $putchar (i32.const 65)) )) "unknown import")
