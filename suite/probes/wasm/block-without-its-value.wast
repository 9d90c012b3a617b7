;; block-without-its-value: a block of a value that leaves none
(assert_invalid (module
(import "env" "putchar" (func $putchar (param i32)))
(func (export "main") (call $putchar (i32.const 65)) (drop (block (result i32))))) "type mismatch")
