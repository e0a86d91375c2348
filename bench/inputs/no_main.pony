class C
  fun value(): U64 => 1
