;; memory-too-large: a memory of at most 65,537 pages
(assert_invalid (module
(import "env" "putchar" (func $putchar (param i32)))
(memory 1 65537)
(func (export "main") (call $putchar (i32.const 65)) )) "memory size must be at most 65536 pages (4GiB)")
