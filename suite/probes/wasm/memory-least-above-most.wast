;; memory-least-above-most: a memory of at least 2 pages and at most 1
(assert_invalid (module
(import "env" "putchar" (func $putchar (param i32)))
(memory 2 1)
(func (export "main") (call $putchar (i32.const 65)) )) "size minimum must not be greater than maximum")
