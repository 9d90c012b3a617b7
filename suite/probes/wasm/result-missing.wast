;; result-missing: a function of a result that leaves none
(assert_invalid (module
(import "env" "putchar" (func $putchar (param i32)))
(func (result i32))
(func (export "main") (call $putchar (i32.const 65)) )) "type mismatch")
