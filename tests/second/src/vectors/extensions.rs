//! Codes 601, 621, 622, 641.

use super::Tally;

pub fn check(tally: &mut Tally) {
    check_columns(tally);
    check_names(tally);
    check_repeated(tally);
    check_nulls(tally);
    check_scopes(tally);
}

/// Reading 16: an empty text is present.
fn check_columns(tally: &mut Tally) {
    let cases = [
        (None, Some("c"), "601 1 -"),
        (None, Some(""), "601 1 -"),
        (None, None, ""),
        (Some(""), Some("c"), ""),
        (Some("t"), None, ""),
        (Some(""), None, ""),
        (Some("t"), Some("c"), ""),
    ];
    for (name, column, want) in cases {
        tally.changed(&format!("601: {name:?} {column:?}"), want, |d| {
            d.extension(name, column, "a_b", "read-write");
        });
    }
}

fn check_names(tally: &mut Tally) {
    let good = ["a_b_c", "a_b", "a__", "gpkg_zoom_other", "0_9", "Z_z", "azAZ09_azAZ09_", "a_0___"];
    let bad = [
        "gpkg_", "_x", "gpkg", "", "_", "__", "___", "a-b_c", "a_b-c", "a b_c", "a_ b", " a_b",
        "a_b ", "a_b\n", "a_b\0", "\u{e4}_x", "a_\u{e4}", "a.b_c", "a_`", "a_{", "a_@", "a_[",
        "a_/", "a_:", "`_a", "{_a", "@_a", "[_a", "/_a", ":_a",
    ];
    let good = good.map(|name| (name, ""));
    let bad = bad.map(|name| (name, "621 0 -"));
    for (name, want) in good.into_iter().chain(bad) {
        tally.changed(&format!("621: {name:?}"), want, |d| {
            d.extensions[0].extension_name = d.text_apart(name);
        });
    }
}

fn check_repeated(tally: &mut Tally) {
    let (name, column) = (Some("valley"), Some("tile_data"));
    tally.changed("622: an earlier row equals it", "622 1 0", |d| {
        d.extension(name, column, "gpkg_webp", "read-write");
    });
    tally.changed("622: whatever the scope", "622 1 0", |d| {
        d.extension(name, column, "gpkg_webp", "write-only");
    });
    tally.changed("622: three alike", "622 1 0, 622 2 0", |d| {
        d.extension(name, column, "gpkg_webp", "read-write");
        d.extension(name, column, "gpkg_webp", "read-write");
    });
    tally.changed("622: another name", "", |d| {
        d.extension(name, column, "gpkg_webq", "read-write");
        d.extension(name, Some("tile_dat"), "gpkg_webp", "read-write");
        d.extension(Some("Valley"), column, "gpkg_webp", "read-write");
    });
    tally.changed("622: texts do not run together", "", |d| {
        d.extension(Some("ab"), Some("c"), "d_e", "read-write");
        d.extension(Some("a"), Some("bc"), "d_e", "read-write");
    });
    tally.changed("622: texts at other places", "622 1 0", |d| {
        d.extension(name, column, "gpkg_webp", "read-write");
        d.extensions[1].table_name = d.text_apart("valley");
        d.extensions[1].column_name = d.text_apart("tile_data");
        d.extensions[1].extension_name = d.text_apart("gpkg_webp");
    });
    tally.changed("622: a bad name too", "621 1 -, 621 2 -, 622 2 1", |d| {
        d.extension(name, column, "", "read-write");
        d.extension(name, column, "", "read-write");
    });
}

/// "Treating NULLs as equal in 622; a unique key in SQLite doesn't."
fn check_nulls(tally: &mut Tally) {
    let cases = [
        ("two rows alike with column NULL: none", Some("t"), None, ""),
        ("two rows alike, both NULL", None, None, ""),
        ("table NULL", None, Some("c"), "601 1 -, 601 2 -"),
        ("empty texts equal each other", Some(""), Some(""), "622 2 1"),
        ("an empty column", Some("t"), Some(""), "622 2 1"),
    ];
    for (shows, name, column, want) in cases {
        tally.changed(&format!("622: {shows}"), want, |d| {
            d.extension(name, column, "a_b", "read-write");
            d.extension(name, column, "a_b", "read-write");
        });
    }
    tally.changed("622: an empty text differs from NULL", "", |d| {
        d.extension(Some("t"), Some(""), "a_b", "read-write");
        d.extension(Some("t"), None, "a_b", "read-write");
        d.extension(Some(""), None, "a_b", "read-write");
        d.extension(None, None, "a_b", "read-write");
    });
}

fn check_scopes(tally: &mut Tally) {
    let cases = [
        ("read-write", ""),
        ("write-only", ""),
        ("readwrite", "641 0 -"),
        ("write_only", "641 0 -"),
        ("Read-Write", "641 0 -"),
        ("read-only", "641 0 -"),
        ("read-write ", "641 0 -"),
        ("read-writ", "641 0 -"),
        ("write-only\0", "641 0 -"),
        ("", "641 0 -"),
    ];
    for (scope, want) in cases {
        tally.changed(&format!("641: {scope:?}"), want, |d| {
            d.extensions[0].scope = d.text_apart(scope);
        });
    }
}
