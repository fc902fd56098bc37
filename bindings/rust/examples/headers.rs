//! Prints C declarations of the packages in the files that are named, with their docs: a small generator.
//! It declares each type, and the functions of interfaces and worlds. It does not look for names that are one in C alone.

use std::error::Error;
use tulfjak::{Docs, Flags, Function, Handle, Interface, InterfaceId, ItemId, Package, Param, Sources};
use tulfjak::{Type, TypeDef, TypeDefKind, TypeId, WorldItem};

const KEYWORDS: &str = " auto bool break case char const continue default do double else enum extern false float for goto if \
    inline int long register restrict return short signed sizeof static struct switch true typedef union unsigned void \
    volatile while ";

fn main() -> Result<(), Box<dyn Error>> {
    let sources = Sources::from_files(std::env::args_os().skip(1))?;
    println!("#include <stdbool.h>\n#include <stddef.h>\n#include <stdint.h>\n");
    println!("typedef struct {{ char *ptr; size_t len; }} wit_string_t;");
    for package in tulfjak::package(&sources)?.packages.values() {
        print_package(package);
    }
    Ok(())
}

fn print_package(package: &Package) {
    println!("\n/* {} */", package.name);
    for (id, ty) in package.types.iter() {
        print_docs(&ty.docs);
        println!("{}", definition(package, id, ty));
    }
    for (id, interface) in package.interfaces.iter() {
        let of = owner_name(package, ItemId::Interface(id));
        interface.functions.values().for_each(|function| print_function(package, &of, function));
    }
    for (id, world) in package.worlds.iter() {
        let of = owner_name(package, ItemId::World(id));
        for (side, items) in [(&of, &world.imports), (&format!("exports_{of}"), &world.exports)] {
            for item in items.values() {
                if let WorldItem::Function(function) = item {
                    print_function(package, side, function);
                }
            }
        }
    }
}

fn print_docs(docs: &Docs) {
    if let Some(text) = &docs.contents {
        println!("/** {} */", text.replace("*/", "* /").replace('\n', "\n * "));
    }
}

/// A name as C has it: `-` becomes `_`, and the signs of mangled names `__`.
fn c_name(name: &str) -> String {
    let name = name.trim_start_matches('[').replace("][", "_").replace([']', '.'], "__").replace(['-', ':'], "_");
    if KEYWORDS.contains(&format!(" {name} ")) { name + "_" } else { name }
}

/// What an interface is called: by its name, or, without one, by its place.
fn interface_name(id: InterfaceId, interface: &Interface) -> String {
    interface.name.clone().unwrap_or_else(|| format!("_{id}"))
}

/// The front of the names of what an item owns.
fn owner_name(package: &Package, owner: ItemId) -> String {
    let item = match owner {
        ItemId::Interface(id) => interface_name(id, &package.interfaces[id]),
        ItemId::World(id) => package.worlds[id].name.clone(),
    };
    c_name(&format!("{}_{}_{item}", package.name.namespace, package.name.name))
}

fn entry_name(package: &Package, id: TypeId) -> String {
    let ty = &package.types[id];
    match (&ty.name, ty.owner) {
        (Some(name), Some(owner)) => format!("{}_{}_t", owner_name(package, owner), c_name(name)),
        _ => format!("{}_{}_type{id}_t", c_name(&package.name.namespace), c_name(&package.name.name)),
    }
}

fn type_name(package: &Package, ty: Type) -> String {
    let word = match ty {
        Type::Bool => "bool",
        Type::U8 => "uint8_t",
        Type::U16 => "uint16_t",
        Type::U32 | Type::Char | Type::ErrorContext => "uint32_t",
        Type::U64 => "uint64_t",
        Type::S8 => "int8_t",
        Type::S16 => "int16_t",
        Type::S32 => "int32_t",
        Type::S64 => "int64_t",
        Type::F32 => "float",
        Type::F64 => "double",
        Type::String => "wit_string_t",
        Type::Id(id) => return entry_name(package, id),
    };
    word.into()
}

/// The declaration of a type. All that it refers to stands before it.
fn definition(package: &Package, id: TypeId, ty: &TypeDef) -> String {
    let name = entry_name(package, id);
    let of = |ty: Type, member: &str| format!("{} {}; ", type_name(package, ty), c_name(member));
    let some = |ty: Option<Type>, member: &str| ty.map(|ty| of(ty, member)).unwrap_or_default();
    let union = |members: String| if members.is_empty() { members } else { format!(" union {{ {members}}} val;") };
    let body = match &ty.kind {
        TypeDefKind::Record(record) => record.fields.iter().map(|field| of(field.ty, &field.name)).collect(),
        TypeDefKind::Tuple(tuple) => tuple.types.iter().enumerate().map(|(n, ty)| of(*ty, &format!("f{n}"))).collect(),
        TypeDefKind::Variant(variant) => {
            format!("uint32_t tag;{}", union(variant.cases.iter().map(|case| some(case.ty, &case.name)).collect()))
        }
        TypeDefKind::Enum(cases) => {
            let names: Vec<_> = cases.cases.iter().map(|case| format!("{name}_{}", c_name(&case.name))).collect();
            return format!("typedef enum {{ {} }} {name};", names.join(", "));
        }
        TypeDefKind::Flags(flags) => return flags_of(&name, flags),
        TypeDefKind::Option(ty) => format!("bool is_some; {}", of(*ty, "val")),
        TypeDefKind::Result(result) => format!("bool is_err;{}", union(some(result.ok, "ok") + &some(result.err, "err"))),
        TypeDefKind::List(ty) => format!("{} *ptr; size_t len;", type_name(package, *ty)),
        TypeDefKind::Map(key, value) => format!("struct {{ {}{}}} *ptr; size_t len;", of(*key, "key"), of(*value, "value")),
        TypeDefKind::FixedLengthList(ty, len) => format!("{} items[{len}];", type_name(package, *ty)),
        TypeDefKind::Resource | TypeDefKind::Future(_) | TypeDefKind::Stream(_) => "int32_t handle;".into(),
        TypeDefKind::Unknown => "void *of_another_package;".into(),
        TypeDefKind::Handle(Handle::Own(id) | Handle::Borrow(id)) => {
            return format!("typedef {} {name};", entry_name(package, *id));
        }
        TypeDefKind::Type(ty) => return format!("typedef {} {name};", type_name(package, *ty)),
    };
    format!("typedef struct {{ {} }} {name};", body.trim_end())
}

fn flags_of(name: &str, flags: &Flags) -> String {
    let words = flags.flags.len().div_ceil(32);
    let bits: Vec<_> = flags.flags.iter().enumerate().map(|(n, flag)| format!("{name}_{} = {n}", c_name(&flag.name))).collect();
    format!("enum {{ {} }};\ntypedef struct {{ uint32_t bits[{words}]; }} {name};", bits.join(", "))
}

fn print_function(package: &Package, of: &str, function: &Function) {
    print_docs(&function.docs);
    let param = |it: &Param| format!("{} {}", type_name(package, it.ty), c_name(&it.name));
    let params: Vec<_> = function.params.iter().map(param).collect();
    let params = if params.is_empty() { "void".into() } else { params.join(", ") };
    let result = function.result.map_or("void".into(), |ty| type_name(package, ty));
    println!("{result} {of}_{}({params});", c_name(&function.name));
}
