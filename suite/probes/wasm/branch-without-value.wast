;; branch-without-value: a branch to a block of a value, without one
(assert_invalid (module
(import "env" "putchar" (func $putchar (param i32)))
(func (export "main") (call $putchar (i32.const 65)) (drop (block (result i32) (br 0))))) "type mismatch")
