//! Class files put together by hand: a small assembler, and files that hold every kind of entry.

/// A pool under construction.
#[derive(Clone, Default)]
pub struct Form {
    pub pool: Vec<u8>,
    pub slots: u16,
}

pub fn two(n: u16) -> [u8; 2] {
    n.to_be_bytes()
}

impl Form {
    pub fn new() -> Form {
        Form { pool: vec![], slots: 1 }
    }

    /// Adds an entry and answers its slot.
    pub fn put(&mut self, tag: u8, body: &[u8]) -> u16 {
        self.pool.push(tag);
        self.pool.extend_from_slice(body);
        let slot = self.slots;
        self.slots += if tag == 5 || tag == 6 { 2 } else { 1 };
        slot
    }

    pub fn utf8(&mut self, s: &[u8]) -> u16 {
        let mut body = two(s.len() as u16).to_vec();
        body.extend_from_slice(s);
        self.put(1, &body)
    }

    pub fn one(&mut self, tag: u8, a: u16) -> u16 {
        self.put(tag, &two(a))
    }

    pub fn both(&mut self, tag: u8, a: u16, b: u16) -> u16 {
        self.put(tag, &[two(a), two(b)].concat())
    }

    pub fn class(&mut self, name: &[u8]) -> u16 {
        let name = self.utf8(name);
        self.one(7, name)
    }

    pub fn named(&mut self, name: &[u8], descriptor: &[u8]) -> u16 {
        let name = self.utf8(name);
        let descriptor = self.utf8(descriptor);
        self.both(12, name, descriptor)
    }

    pub fn member(&mut self, tag: u8, class: u16, name: &[u8], descriptor: &[u8]) -> u16 {
        let named = self.named(name, descriptor);
        self.both(tag, class, named)
    }

    pub fn handle(&mut self, kind: u8, member: u16) -> u16 {
        self.put(15, &[kind, two(member)[0], two(member)[1]])
    }

    /// Header and pool.
    pub fn head(&self, major: u16) -> Vec<u8> {
        let mut file = vec![0xCA, 0xFE, 0xBA, 0xBE, 0, 0];
        file.extend_from_slice(&two(major));
        file.extend_from_slice(&two(self.slots));
        file.extend_from_slice(&self.pool);
        file
    }

    /// A whole class; members and attributes are given as their bytes.
    pub fn file(&self, major: u16, rest: &Rest) -> Vec<u8> {
        let mut file = self.head(major);
        for n in [rest.flags, rest.this, rest.super_class, rest.interfaces.len() as u16] {
            file.extend_from_slice(&two(n));
        }
        for &i in &rest.interfaces {
            file.extend_from_slice(&two(i));
        }
        for list in [&rest.fields, &rest.methods, &rest.attributes] {
            file.extend_from_slice(&two(list.len() as u16));
            for piece in list {
                file.extend_from_slice(piece);
            }
        }
        file
    }
}

/// What follows the pool.
#[derive(Clone, Default)]
pub struct Rest {
    pub flags: u16,
    pub this: u16,
    pub super_class: u16,
    pub interfaces: Vec<u16>,
    pub fields: Vec<Vec<u8>>,
    pub methods: Vec<Vec<u8>>,
    pub attributes: Vec<Vec<u8>>,
}

pub fn attribute(name: u16, body: &[u8]) -> Vec<u8> {
    let mut out = two(name).to_vec();
    out.extend_from_slice(&(body.len() as u32).to_be_bytes());
    out.extend_from_slice(body);
    out
}

pub fn member(flags: u16, name: u16, descriptor: u16, attributes: &[Vec<u8>]) -> Vec<u8> {
    let mut out = [two(flags), two(name), two(descriptor), two(attributes.len() as u16)].concat();
    for a in attributes {
        out.extend_from_slice(a);
    }
    out
}

/// A BootstrapMethods body: each method's handle and arguments.
pub fn bootstrap(methods: &[(u16, &[u16])]) -> Vec<u8> {
    let mut out = two(methods.len() as u16).to_vec();
    for (handle, arguments) in methods {
        out.extend_from_slice(&two(*handle));
        out.extend_from_slice(&two(arguments.len() as u16));
        for &a in *arguments {
            out.extend_from_slice(&two(a));
        }
    }
    out
}

/// The smallest class: this class called `A`, no super, nothing else.
pub fn smallest(major: u16) -> Vec<u8> {
    let mut f = Form::new();
    let this = f.class(b"A");
    f.file(major, &Rest { this, ..Rest::default() })
}

/// A class with every kind of entry that the major allows, and some of everything after the pool.
pub fn everything(major: u16, interface: bool) -> Vec<u8> {
    let mut f = Form::new();
    let this = f.class(b"p/This");
    let parent = f.class(b"java/lang/Object");
    let first = f.class(b"p/First");
    let second = f.class(b"p/Second");
    f.class(b"[[Lp/This;");
    f.class(b"[I");
    let text = f.utf8("gr\u{fc}\u{df}e \u{4e2d}".as_bytes());
    let string = f.one(8, text);
    let raw = f.utf8(&[0x41, 0xED, 0xA0, 0x80]);
    f.one(8, raw);
    let integer = f.put(3, &(-1i32).to_be_bytes());
    let float = f.put(4, &0x7FC0_0001u32.to_be_bytes());
    let long = f.put(5, &i64::MIN.to_be_bytes());
    let double = f.put(6, &0xFFF8_0000_0000_0123u64.to_be_bytes());
    let field = f.member(9, this, b"count", b"J");
    let method = f.member(10, this, b"run", b"(I[JLp/This;)Lp/This;");
    let build = f.member(10, this, b"<init>", b"()V");
    let shared = f.member(11, first, b"each", b"(D)V");
    let unused = f.utf8(b"not a descriptor");
    let name = f.utf8(b"free");
    f.both(12, name, unused);
    let mut attributes = vec![];
    let other = f.utf8(b"Unknown");
    if major >= 51 {
        let mut handles = vec![];
        for kind in 1..=9u8 {
            let member = match kind {
                1..=4 => field,
                8 => build,
                9 => shared,
                6 | 7 if major >= 52 && kind == 6 => shared,
                _ => method,
            };
            handles.push(f.handle(kind, member));
        }
        let descriptor = f.utf8(b"(Ljava/lang/String;)V");
        let kind = f.one(16, descriptor);
        let call = f.named(b"call", b"()Ljava/lang/Runnable;");
        f.both(18, 0, call);
        f.both(18, 1, call);
        if major >= 53 {
            let module = f.utf8(b"a.b\\@c");
            f.one(19, module);
            let package = f.utf8(b"p/q");
            f.one(20, package);
        }
        if major >= 55 {
            let constant = f.named(b"constant", b"I");
            f.both(17, 1, constant);
        }
        let called = f.utf8(b"BootstrapMethods");
        let arguments = [integer, float, long, double, string, this, handles[0], kind];
        attributes.push(attribute(called, &bootstrap(&[(handles[5], &arguments), (handles[4], &[])])));
    }
    attributes.push(attribute(other, &[1, 2, 3]));
    attributes.push(attribute(other, &[]));
    let one = f.utf8(b"one");
    let int = f.utf8(b"I");
    let longs = f.utf8(b"[J");
    let init = f.utf8(b"<init>");
    let clinit = f.utf8(b"<clinit>");
    let nothing = f.utf8(b"()V");
    let with = f.utf8(b"(I)V");
    let fields = vec![
        member(0xFFFF, one, int, &[attribute(other, &[9])]),
        member(0x0009, one, longs, &[]),
        member(0, init, int, &[attribute(other, &[]), attribute(other, &[1])]),
    ];
    let mut methods = vec![member(0x0008, clinit, nothing, &[]), member(0xFFFF, one, with, &[attribute(other, &[0; 5])])];
    if !interface {
        methods.push(member(1, init, nothing, &[]));
        methods.push(member(1, init, with, &[]));
    }
    let flags = if interface { 0x0600 } else { 0x0021 };
    f.file(major, &Rest { flags, this, super_class: parent, interfaces: vec![first, second], fields, methods, attributes })
}

/// A small class with a field, a method, an interface and, from major 51, a call site.
pub fn compact(major: u16, wide: bool) -> Vec<u8> {
    let mut f = Form::new();
    let this = f.class(b"A");
    let name = this - 1;
    if wide {
        f.put(6, &2.5f64.to_be_bytes());
    }
    let int = f.utf8(b"I");
    let nothing = f.utf8(b"()V");
    let init = f.utf8(b"<init>");
    let named = f.both(12, name, if wide { int } else { nothing });
    let reference = f.both(if wide { 9 } else { 10 }, this, named);
    let string = f.one(8, int);
    let mut attributes = vec![attribute(name, &[7])];
    if major >= 51 {
        let handle = f.handle(if wide { 1 } else { 6 }, reference);
        let kind = f.one(16, nothing);
        if wide && major >= 55 {
            f.both(17, 0, named);
        } else if !wide {
            f.both(18, 0, named);
        }
        if major >= 53 {
            f.one(19, int);
            f.one(20, name);
        }
        let called = f.utf8(b"BootstrapMethods");
        attributes.push(attribute(called, &bootstrap(&[(handle, &[string, kind])])));
    }
    f.file(
        major,
        &Rest {
            flags: 0x0021,
            this,
            super_class: 0,
            interfaces: vec![this],
            fields: vec![member(0xFFFF, name, int, &[attribute(name, &[])])],
            methods: vec![member(1, init, nothing, &[]), member(0xFFFF, name, nothing, &[attribute(name, &[1])])],
            attributes,
        },
    )
}
