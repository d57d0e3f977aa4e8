//! The reader of XML that pictures are checked by refuses what isn't well-formed.

use crate::common::xml::{read, references};

#[test]
fn what_is_well_formed() {
    let text = "<?xml version=\"1.0\" encoding=\"UTF-8\"?>\n\
                <a b=\"1 &lt; 2\" c='\"'>x &amp; y<d/>z&#39;<e id=\"f\">ü</e ></a>\n";
    let root = read(text).expect("well-formed");
    assert_eq!((root.get("b"), root.get("c")), (Some("1 < 2"), Some("\"")));
    assert_eq!((root.text().as_str(), root.all().count()), ("x & yz'", 3));
    assert_eq!(root.named("e")[0].text(), "ü");
}

#[test]
fn what_is_not() {
    for (text, why) in [
        ("", "in place of '<'"),
        ("x<a/>", "in place of '<'"),
        ("<a>", "no end"),
        ("<a>x", "no end"),
        ("<a><b></a></b>", "'b' ends as 'a'"),
        ("<a/><b/>", "behind the end"),
        ("<a b=1/>", "in place of '\"'"),
        ("<a b=\"1/>", "in place of '\"'"),
        ("<a b/>", "in place of '='"),
        ("<a b=\"<\"/>", "in place of '\"'"),
        ("<a b=\"1\"c=\"2\"/>", "no blank"),
        ("<a b=\"1\" b=\"2\"/>", "the attribute b twice"),
        ("<a b=\"&\"/>", "& without ;"),
        ("<a>&nbsp;</a>", "the entity 'nbsp'"),
        ("<a>&#xZ;</a>", "the entity"),
        ("<a>&#0;</a>", "the entity '#0'"),
        ("<a>]]></a>", "]]> in a text"),
        ("<a>\u{1B}</a>", "forbidden"),
        ("<a>\u{FFFF}</a>", "forbidden"),
        ("<1/>", "is no name"),
        ("<a><!-- b --></a>", "is no name"),
    ] {
        let said = read(text).expect_err(text);
        assert!(said.contains(why), "{text}: {said}");
    }
}

#[test]
fn ids_that_lead_nowhere() {
    for (text, why) in [
        ("<a id=\"b\"><c id=\"b\"/></a>", "the id b stands twice"),
        ("<a id=\"b\"><c href=\"#d\"/></a>", "there is no id d"),
        (
            "<a aria-labelledby=\"b c\"><d id=\"b\"/></a>",
            "there is no id c",
        ),
        ("<a aria-describedby=\"b\"/>", "there is no id b"),
        ("<a href=\"http://b\"/>", "there is no id http://b"),
    ] {
        let root = read(text).expect("well-formed");
        assert_eq!(references(&root).expect_err(text), why);
    }
    let good = read("<a id=\"b\" aria-labelledby=\"b c\"><d id=\"c\" href=\"#b\"/></a>");
    assert_eq!(references(&good.expect("well-formed")), Ok(()));
}
