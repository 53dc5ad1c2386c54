//! Each example program runs, and all that it asserts holds.

macro_rules! programs {
    ($($(#[$attribute:meta])* $name:ident $path:literal;)*) => {$(
        $(#[$attribute])*
        #[path = $path]
        mod $name;

        $(#[$attribute])*
        #[test]
        fn $name() {
            $name::main();
        }
    )*};
}

programs! {
    address_list "../examples/address_list.rs";
    calendar "../examples/calendar.rs";
    download_ranges "../examples/download_ranges.rs";
    free_pages "../examples/free_pages.rs";
    in_a_static "../examples/in_a_static.rs";
    keys_and_threads "../examples/keys_and_threads.rs";
    leases "../examples/leases.rs";
    lexer_classes "../examples/lexer_classes.rs";
    names "../examples/names.rs";
    ports "../examples/ports.rs";
    rules "../examples/rules.rs";
    #[cfg(all(feature = "json", feature = "serde"))]
    serde_formats "../examples/serde_formats.rs";
    sudoku "../examples/sudoku.rs";
    switch "../examples/switch.rs";
}
