This writes an A
  0123456789 (five times thirteen: 5 * 13 = 65); "quoted" 'words' {and} \slashes/ & ~^_`|=?@$%
+++++ times	[ > +++++ +++++ +++ < - ] > then write: .
the end
