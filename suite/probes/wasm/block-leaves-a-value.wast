;; block-leaves-a-value: a value left at the end of a block without one
(assert_invalid (module
(import "env" "putchar" (func $putchar (param i32)))
(func (export "main") (call $putchar (i32.const 65)) (block (i32.const 1)))) "type mismatch")
