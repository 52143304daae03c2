# Lets the library's sweep, read as Rust, say after every step what its state is.
/^fn examine_two(/,/^}/s/^{$/&\
    told::examined(a, b);/
/^    At {$/i\
    told::step((p.x, p.y, p.d), \&active[..turned.live], \&book.marks, \&book.waiting[book.head..], \&bytes[..book.end]);
