;; start-with-a-parameter: a start function that takes a value
(assert_invalid (module
(import "env" "putchar" (func $putchar (param i32)))
(func $f (param i32))
(start $f)
(func (export "main") (call $putchar (i32.const 65)) )) "start function")
