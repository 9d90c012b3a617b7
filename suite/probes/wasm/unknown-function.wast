;; unknown-function: a call of a function that isn't there
(assert_invalid (module
(import "env" "putchar" (func $putchar (param i32)))
(func (export "main") (call $putchar (i32.const 65)) (call 9))) "unknown function")
