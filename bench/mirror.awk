# Writes in C the structs of Rattle that it reads, field by field, and a program that prints what a Series takes in memory. An enum is a number
# and what its cases hold; the compiler stops at a type that is not known here.
BEGIN {
  print "#include <stdint.h>\n#include <stdio.h>"
  print "typedef uint8_t u8, bool_;\ntypedef uint32_t u32;\ntypedef uint64_t u64, usize;"
}
/^pub struct (Terms|Entry|Book|Series) \{/ { name = $3; print "typedef struct {"; next }
/^pub enum Pricing \{/ { name = $3; print "typedef struct {\n  u32 which;\n  union {"; cases = 1; next }
name && /^}/ { if (cases) print "  } held;"; print "} " name ";"; name = ""; cases = 0; next }
name && cases && match($0, /\(.*\)/) { print "    " substr($0, RSTART + 1, RLENGTH - 2) " of" NR ";" }
name && !cases && /^ *pub / {
  sub(/^ *pub /, "")
  sub(/,$/, "")
  split($0, part, ": ")
  type = part[2]
  many = ""
  if (match(type, /^\[.*; .*\]$/)) {
    split(substr(type, 2, length(type) - 2), array, "; ")
    type = array[1]
    many = "[" array[2] "]"
  }
  if (type == "bool") type = "bool_"
  print "  " type " " part[1] many ";"
}
END { print "int main(void) { printf(\"%zu\\n\", sizeof(Series)); }" }
