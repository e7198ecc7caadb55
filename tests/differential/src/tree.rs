//! Records nested into the Rust's own tree, so that the Rust's own equality compares them.
use crate::catalogue::{Kind, Record, Span, Value};
use crate::idl::parser::*;

type Nested<T> = Result<T, String>;

pub fn tree(records: &[Record], text: &[u8]) -> Nested<Idl> {
    let mut nest = Nest { text, idl: Idl::default(), open: Open::Nothing, annotated: false, end: 0 };
    for (i, r) in records.iter().enumerate() {
        nest.add(r).map_err(|e| format!("record {i}: {e}: {r:?}"))?;
    }
    match nest.open {
        Open::Attribute => Err("an attribute without its field".into()),
        _ => Ok(nest.idl),
    }
}

/// Where parts of the last record's declaration go. A dropped type's parts go nowhere.
#[derive(Clone, Copy, PartialEq)]
enum Open {
    Nothing,
    Cluster,
    Enum(Home),
    Bitmap(Home),
    Struct(Home),
    Attribute,
    Event,
    Endpoint,
    Instantiation,
}

/// Where a type is: in its cluster, hoisted from it, at the top level, or dropped.
#[derive(Clone, Copy, PartialEq)]
enum Home {
    Cluster,
    Hoisted,
    Top,
    Dropped,
}

struct Nest<'a> {
    text: &'a [u8],
    idl: Idl,
    open: Open,
    /// Whether annotations may follow: after an entry and after its annotations.
    annotated: bool,
    /// Where the last name or annotation's value ends: names follow each other as in the text.
    end: usize,
}

fn maturity(n: u64) -> ApiMaturity {
    [ApiMaturity::Stable, ApiMaturity::Provisional, ApiMaturity::Internal, ApiMaturity::Deprecated][n as usize]
}

fn privilege(n: u64) -> AccessPrivilege {
    [AccessPrivilege::View, AccessPrivilege::Operate, AccessPrivilege::Manage, AccessPrivilege::Administer][n as usize]
}

/// Of the bytes between a default string's quotes, as the Rust keeps them.
pub fn unescape(s: &str) -> String {
    let mut chars = s.chars();
    let mut out = String::new();
    while let Some(c) = chars.next() {
        out.push(match c {
            '\\' => match chars.next() {
                Some('n') => '\n',
                Some('t') => '\t',
                Some(c) => c,
                None => '\\',
            },
            c => c,
        });
    }
    out
}

impl Nest<'_> {
    fn string(&self, span: Span) -> Nested<String> {
        let bytes = self.text.get(span.at..span.at + span.len).ok_or("a span outside the text")?;
        String::from_utf8(bytes.into()).map_err(|e| e.to_string())
    }

    fn option(&self, span: Option<Span>) -> Nested<Option<String>> {
        span.map(|s| self.string(s)).transpose()
    }

    fn in_cluster(&self) -> bool {
        match self.open {
            Open::Cluster | Open::Event => true,
            Open::Enum(home) | Open::Bitmap(home) | Open::Struct(home) => home != Home::Top,
            _ => false,
        }
    }

    fn cluster(&mut self) -> Nested<&mut Cluster> {
        if !self.in_cluster() {
            return Err("outside a cluster".into());
        }
        self.idl.clusters.last_mut().ok_or("before any cluster".into())
    }

    fn endpoint(&mut self) -> Nested<&mut Endpoint> {
        match self.open {
            Open::Endpoint | Open::Instantiation => Ok(self.idl.endpoints.last_mut().unwrap()),
            _ => Err("outside an endpoint".into()),
        }
    }

    fn instantiation(&mut self) -> Nested<&mut ClusterInstantiation> {
        match self.open {
            Open::Instantiation => Ok(self.idl.endpoints.last_mut().unwrap().instantiations.last_mut().unwrap()),
            _ => Err("outside an instantiation".into()),
        }
    }

    /// Where a type goes, by its place. Of a shared type after a cluster, records don't tell whether the cluster has ended.
    fn home(&mut self, place: u64, shared: bool) -> Nested<Home> {
        match (place, shared) {
            (0, false) => self.cluster().map(|_| Home::Cluster),
            (1, true) if self.in_cluster() => Ok(Home::Hoisted),
            (1, _) => Ok(Home::Top),
            (2, true) => self.cluster().map(|_| Home::Dropped),
            _ => Err("a type whose place can't be".into()),
        }
    }

    /// The types at a home, none for dropped ones.
    fn entities(&mut self, home: Home) -> Option<&mut Entities> {
        match home {
            Home::Cluster => self.idl.clusters.last_mut().map(|c| &mut c.entities),
            Home::Hoisted | Home::Top => Some(&mut self.idl.globals),
            Home::Dropped => None,
        }
    }

    fn add(&mut self, r: &Record) -> Nested<()> {
        let is_type = matches!(r.kind, Kind::Enum { .. } | Kind::Bitmap { .. } | Kind::Struct { .. });
        if !is_type && r.place != 0 {
            return Err("a place of what is no type".into());
        }
        if self.open == Open::Attribute && !matches!(r.kind, Kind::Field { .. }) {
            return Err("no field after an attribute".into());
        }
        let id = self.option(r.name)?.unwrap_or_default();
        if let Some(name) = r.name {
            if name.at < self.end || name.len == 0 {
                return Err("a name out of order".into());
            }
            self.end = name.at + name.len;
        }
        let doc_comment = self.option(r.doc)?;
        let maturity = maturity(r.maturity);
        match r.kind {
            Kind::Cluster { code, revision } => {
                self.idl.clusters.push(Cluster { doc_comment, maturity, id, code, revision, ..Default::default() });
                self.open = Open::Cluster;
            }
            Kind::Enum { shared: is_shared, base } => {
                let home = self.home(r.place, is_shared)?;
                let base_type = self.string(base)?;
                let new = Enum { is_shared, doc_comment, maturity, id, base_type, entries: vec![] };
                self.entities(home).map(|e| e.enums.push(new));
                self.open = Open::Enum(home);
            }
            Kind::Bitmap { shared: is_shared, base } => {
                let home = self.home(r.place, is_shared)?;
                let base_type = self.string(base)?;
                let new = Bitmap { is_shared, doc_comment, maturity, id, base_type, entries: vec![] };
                self.entities(home).map(|e| e.bitmaps.push(new));
                self.open = Open::Bitmap(home);
            }
            Kind::Entry { code } => {
                let new = ConstantEntry { maturity, id, code };
                match self.open {
                    Open::Enum(home) => self.entities(home).map(|e| e.enums.last_mut().unwrap().entries.push(new)),
                    Open::Bitmap(home) => self.entities(home).map(|e| e.bitmaps.last_mut().unwrap().entries.push(new)),
                    _ => return Err("an entry outside enum and bitmap".into()),
                };
            }
            Kind::Struct { form, fabric_scoped, code } => {
                let struct_type = match form {
                    0 => StructType::Regular,
                    1 => StructType::Request,
                    2 => StructType::Response(code),
                    _ => StructType::Shared,
                };
                if form != 2 && code != 0 {
                    return Err("a code of what is no response".into());
                }
                let home = self.home(r.place, struct_type == StructType::Shared)?;
                let new = Struct { doc_comment, maturity, struct_type, id, fields: vec![], is_fabric_scoped: fabric_scoped };
                self.entities(home).map(|e| e.structs.push(new));
                self.open = Open::Struct(home);
            }
            Kind::Field { .. } => self.add_field(r, id)?,
            Kind::Attribute { flags, read, write } => {
                let [is_read_only, is_write_only, is_no_subscribe, is_timed_write] = flags;
                let (read_acl, write_acl, field) = (privilege(read), privilege(write), StructField::default());
                self.cluster()?.attributes.push(Attribute {
                    doc_comment,
                    maturity,
                    field,
                    read_acl,
                    write_acl,
                    is_read_only,
                    is_write_only,
                    is_no_subscribe,
                    is_timed_write,
                });
                self.open = Open::Attribute;
            }
            Kind::Command { timed: is_timed, fabric: is_fabric_scoped, input, output, code, invoke } => {
                let (access, input, output) = (privilege(invoke), self.option(input)?, self.string(output)?);
                let new = Command { doc_comment, maturity, access, id, input, output, code, is_timed, is_fabric_scoped };
                self.cluster()?.commands.push(new);
                self.open = Open::Cluster;
            }
            Kind::Event { priority, fabric_sensitive: is_fabric_sensitive, code, read } => {
                let priority = match priority {
                    0 => EventPriority::Critical,
                    1 => EventPriority::Info,
                    2 => EventPriority::Debug,
                    _ => return Err("no priority".into()),
                };
                let access = privilege(read);
                let new = Event { doc_comment, maturity, priority, access, id, code, fields: vec![], is_fabric_sensitive };
                self.cluster()?.events.push(new);
                self.open = Open::Event;
            }
            Kind::Endpoint { id } => {
                self.idl.endpoints.push(Endpoint { id, ..Default::default() });
                self.open = Open::Endpoint;
            }
            Kind::DeviceType { code, version } => {
                self.endpoint()?.device_types.push(DeviceType { name: id, code, version });
                self.open = Open::Endpoint;
            }
            Kind::Binding => {
                self.endpoint()?.bindings.push(id);
                self.open = Open::Endpoint;
            }
            Kind::Instantiation => {
                self.endpoint()?.instantiations.push(ClusterInstantiation { name: id, ..Default::default() });
                self.open = Open::Instantiation;
            }
            Kind::AttributeInstance { handling, ref default } => {
                let handle_type = match handling {
                    0 => AttributeHandlingType::Ram,
                    1 => AttributeHandlingType::Callback,
                    2 => AttributeHandlingType::Persist,
                    _ => return Err("no handling".into()),
                };
                let default = match *default {
                    Value::None => None,
                    Value::Number(n) => Some(DefaultAttributeValue::Number(n)),
                    Value::Signed(n) => Some(DefaultAttributeValue::Signed(n)),
                    Value::Truth(t) => Some(DefaultAttributeValue::Bool(t)),
                    Value::Text(s) => Some(DefaultAttributeValue::String(unescape(&self.string(s)?))),
                };
                self.instantiation()?.attributes.push(AttributeInstantiation { handle_type, name: id, default });
            }
            Kind::CommandInstance => self.instantiation()?.commands.push(id),
            Kind::EventInstance => self.instantiation()?.events.push(id),
            Kind::Annotation { value } => self.pass_over(r, value)?,
        }
        self.annotated = matches!(r.kind, Kind::Entry { .. } | Kind::Annotation { .. });
        if r.maturity != 0 && matches!(self.open, Open::Endpoint | Open::Instantiation) {
            return Err("a maturity of an endpoint or its part".into());
        }
        Ok(())
    }

    /// An annotation, which the Rust's tree hasn't: it belongs to the entry before it, and its value is between quotes after its key.
    fn pass_over(&mut self, r: &Record, value: Span) -> Nested<()> {
        if !self.annotated {
            return Err("an annotation without its entry".into());
        }
        if r.maturity != 0 {
            return Err("a maturity of an annotation".into());
        }
        let quote = |at: Option<usize>| at.and_then(|at| self.text.get(at)) == Some(&b'"');
        if value.at <= self.end || !quote(value.at.checked_sub(1)) || !quote(Some(value.at + value.len)) {
            return Err("a value that is not between quotes after its key".into());
        }
        self.end = value.at + value.len;
        Ok(())
    }

    fn add_field(&mut self, r: &Record, id: String) -> Nested<()> {
        let Kind::Field { list: is_list, maximum: max_length, optional, nullable, fabric_sensitive, data_type, code } = r.kind else {
            unreachable!()
        };
        let data_type = DataType { name: self.string(data_type)?, is_list, max_length };
        let new = StructField {
            field: Field { data_type, id, code },
            maturity: maturity(r.maturity),
            is_optional: optional,
            is_nullable: nullable,
            is_fabric_sensitive: fabric_sensitive,
        };
        let cluster = self.idl.clusters.last_mut();
        match self.open {
            Open::Struct(home) => {
                self.entities(home).map(|e| e.structs.last_mut().unwrap().fields.push(new));
            }
            Open::Event => cluster.unwrap().events.last_mut().unwrap().fields.push(new),
            Open::Attribute => {
                cluster.unwrap().attributes.last_mut().unwrap().field = new;
                self.open = Open::Cluster;
            }
            _ => return Err("a field outside struct, event and attribute".into()),
        }
        Ok(())
    }
}
