;; unknown-label: a branch by 1 outside all blocks
(assert_invalid (module
(import "env" "putchar" (func $putchar (param i32)))
(func (export "main") (call $putchar (i32.const 65)) (br 1))) "unknown label")
