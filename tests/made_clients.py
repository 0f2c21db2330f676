"""The toxics of the packages for Go, JavaScript, Java and Rust, made of the program's own table."""
import re
import textwrap

from made_tables import class_name, of_type, sentence

MADE = "made by tests/tables of the program's own table"
# What no line of a comment is longer than, with its indentation.
WIDTH = 150
GO_HEAD = """// Code {made}. DO NOT EDIT.

package toxi
"""
GO_TYPE = """
{words}
type {name} struct {{
	Common
{fields}
}}

func (toxic {name}) settings() settings {{
	return settings{{"{type}", toxic.Common, []attribute{{
{attributes}
	}}}}
}}
"""
JS_HEAD = """// This file is {made}.
import type {{ ToxicBase }} from "./toxic.js";
"""
JS_TYPE = """
{words}
export interface {name} extends ToxicBase {{
  readonly type: "{type}";
{fields}
}}
"""
JAVA_HEAD = """package invalid.toxi;

/** The types of toxics. Each is immutable: a setter returns another toxic. This file is {made}. */
public final class Toxics {{
    private Toxics() {{}}
"""
JAVA_TYPE = """
{words}
    public static {name} {call}({parameters}) {{
        return new {name}(Settings.of("{type}"){given});
    }}

{words}
    public static final class {name} extends Toxic<{name}> {{
        private {name}(Settings settings) {{
            super(settings);
        }}

        @Override
        {name} made(Settings settings) {{
            return new {name}(settings);
        }}
{setters}
    }}
"""
JAVA_SETTER = """
{words}
        public {name} {field}(long {field}) {{
            return made(settings().with("{key}", {field}));
        }}
"""
RUST_HEAD = """//! The types of toxics. This file is {made}.
use crate::toxic::toxic_type;
"""
RUST_TYPE = """
toxic_type! {{
{words}
    {name} "{type}" ({required}) {{
{setters}
    }}
}}
"""


def told(toxic):
    return f"{toxic.words[0].upper()}{toxic.words[1:]}."


def comment(text, prefix):
    """A comment whose lines begin with a prefix."""
    return "\n".join(prefix + line for line in textwrap.wrap(text, WIDTH - len(prefix)))


def block_comment(text, indent):
    """A comment of Java and JavaScript."""
    return f"{indent}/** {text} */" if len(indent + text) <= WIDTH else "\n".join([f"{indent}/**", comment(text, f"{indent} * "), f"{indent} */"])


def camel(name):
    """The name of a field in Java and JavaScript."""
    return re.sub("_(.)", lambda found: found[1].upper(), name)


def pascal(name):
    return "".join(word.capitalize() for word in name.split("_"))


def filled(template, table, toxic, words, **made):
    """A type's text. All defaults are 0, so what is left out in a language that has zeros is what the program takes."""
    assert not any(attribute.default for attribute in table.attributes), "an attribute's default isn't 0"
    return template.format(name=class_name(toxic), type=toxic.name, words=words, **made)


def go_toxics(table):
    """The file of the Go module with a struct for each type."""
    return GO_HEAD.format(made=MADE) + "".join(go_type(table, toxic) for toxic in table.toxics)


def go_type(table, toxic):
    mine = of_type(table, toxic)
    fields = [f"{comment(f'{pascal(each.name)}: {sentence(each)}', chr(9) + '// ')}\n\t{pascal(each.name)} int64" for each in mine]
    attributes = [f'\t\t{{"{each.name}", toxic.{pascal(each.name)}, {str(each.required).lower()}}},' for each in mine]
    words = comment(f"{class_name(toxic)} {toxic.words}.", "// ")
    return filled(GO_TYPE, table, toxic, words, fields="\n".join(fields), attributes="\n".join(attributes))


def js_toxics(table):
    """The declarations of the npm package with an interface for each type. `Toxic` is any of them."""
    names = " | ".join(class_name(toxic) for toxic in table.toxics)
    union = f"\n/** A toxic of any type. */\nexport type Toxic = {names};\n"
    return JS_HEAD.format(made=MADE) + union + "".join(js_type(table, toxic) for toxic in table.toxics)


def js_type(table, toxic):
    fields = [f"{block_comment(sentence(each), '  ')}\n  readonly {each.name}{'' if each.required else '?'}: number;" for each in of_type(table, toxic)]
    return filled(JS_TYPE, table, toxic, block_comment(told(toxic), ""), fields="\n".join(fields))


def java_toxics(table):
    """The class of the jar with a class and a call for each type. What a type must have are the parameters of its call."""
    return JAVA_HEAD.format(made=MADE) + "".join(java_type(table, toxic) for toxic in table.toxics) + "}\n"


def java_type(table, toxic):
    required = [each for each in of_type(table, toxic) if each.required]
    setters = [java_setter(toxic, each) for each in of_type(table, toxic) if not each.required]
    return filled(
        JAVA_TYPE,
        table,
        toxic,
        block_comment(" ".join([told(toxic), *(f"{camel(each.name)}: {sentence(each)}" for each in required)]), "    "),
        call=camel(toxic.name),
        parameters=", ".join(f"long {camel(each.name)}" for each in required),
        given="".join(f'.with("{each.name}", {camel(each.name)})' for each in required),
        setters="".join(setters).rstrip("\n"),
    )


def java_setter(toxic, attribute):
    words = block_comment(sentence(attribute), "        ")
    return JAVA_SETTER.format(words=words, name=class_name(toxic), field=camel(attribute.name), key=attribute.name)


def rust_toxics(table):
    """The module of the crate with a struct for each type. What a type must have are the parameters of its `new`."""
    return RUST_HEAD.format(made=MADE) + "".join(rust_type(table, toxic) for toxic in table.toxics)


def rust_type(table, toxic):
    mine = of_type(table, toxic)
    required = "".join(f"\n{comment(f'`{each.name}`: {sentence(each)}', '        /// ')}\n        {each.name}," for each in mine if each.required)
    setters = [f"{comment(sentence(each), '        /// ')}\n        {each.name}," for each in mine if not each.required]
    return filled(
        RUST_TYPE, table, toxic, comment(told(toxic), "    /// "), required=required + ("\n    " if required else ""), setters="\n".join(setters)
    )


def version_behind(*places):
    """The text of a file with the program's version behind each of these texts, in place of the one that is there."""

    def made(table, text):
        version = table.version.split(" ")[0]
        for place in places:
            text = re.sub(rf"({re.escape(place)})\d+\.\d+\.\d+", lambda found: found[1] + version, text, count=1)
        return text

    return made


# Whole files.
CLIENTS = {
    "clients/go/toxics.go": go_toxics,
    "clients/js/toxics.d.ts": js_toxics,
    "clients/java/src/main/java/invalid/toxi/Toxics.java": java_toxics,
    "clients/rust/src/toxics.rs": rust_toxics,
}
# Files with the version of a package, which is the program's.
VERSIONS = {
    "docs/LANGUAGES.md": version_behind("toxi.invalid/toxi@v", "toxi.invalid-toxi-", "target/toxi-"),
    "clients/go/program.go": version_behind('const Version = "'),
    "clients/js/package.json": version_behind('"version": "', '-x64": "', '-arm64": "'),
    "clients/rust/Cargo.toml": version_behind('name = "toxi"\nversion = "'),
    "clients/java/pom.xml": version_behind("<artifactId>toxi</artifactId>\n  <version>"),
    "clients/java/src/main/java/invalid/toxi/Program.java": version_behind('VERSION = "'),
}
