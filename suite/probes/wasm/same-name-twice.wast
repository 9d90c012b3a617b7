;; same-name-twice: two exports of one name
(assert_invalid (module
(import "env" "putchar" (func $putchar (param i32)))
(func (export "main") (call $putchar (i32.const 65)) )
(func (export "main"))) "duplicate export name")
