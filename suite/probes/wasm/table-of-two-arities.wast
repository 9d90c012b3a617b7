;; table-of-two-arities: a br_table to a block with a value and to one without
(assert_invalid (module
(import "env" "putchar" (func $putchar (param i32)))
(func (export "main") (call $putchar (i32.const 65)) (block (drop (block (result i32) (i32.const 1) (br_table 0 1 (i32.const 0))))))) "type mismatch")
