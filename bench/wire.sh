#!/bin/sh
# Prints what the wire takes of a login and of a validation: from the bytes of a login's request to its command, for the
# response to it, whose body has 497 bytes, and from the bytes of a validation's request to its response. Of each it prints
# the instructions and how often memory is taken, counted by valgrind's callgrind over 1,000 and over 11,000 of them, and the
# time, the best of several runs on one core. The crates are measured from a program in a folder of its own, which goes
# afterwards; it is proved first, so a first run takes some minutes.
set -e
. "$(dirname "$0")/program.sh"

# The requests: a login with a body of 189 bytes, and the validation of a token of 200 characters by one as long.
python3 - "$work" <<'END'
import sys

BODY = (
    '{"auth":{"identity":{"methods":["password"],"password":{"user":{"domain":{"id":"default"},"name":"ann",'
    '"password":"secret"}}},"scope":{"project":{"domain":{"id":"default"},"name":"demo"}}}}'
)
FIELDS = (
    "Host: 127.0.0.1:5000\r\nUser-Agent: python-keystoneclient\r\n"
    "Accept-Encoding: gzip, deflate\r\nAccept: application/json\r\n"
)
KIND = f"Content-Type: application/json\r\nContent-Length: {len(BODY)}\r\n\r\n"
LOGIN = f"POST /v3/auth/tokens HTTP/1.1\r\n{FIELDS}{KIND}{BODY}"
TOKEN = "gAAAA".ljust(200, "x")
VALIDATION = f"GET /v3/auth/tokens HTTP/1.1\r\n{FIELDS}X-Auth-Token: {TOKEN}\r\nX-Subject-Token: {TOKEN}\r\n\r\n"
for name, request in [("login", LOGIN), ("validation", VALIDATION)]:
    for times in [1000, 11000]:
        with open(f"{sys.argv[1]}/{name}.{times}", "w", newline="") as file:
            file.write(request * times)
open(f"{sys.argv[1]}/response.1000", "w").close()
open(f"{sys.argv[1]}/response.11000", "w").close()
END

begin wire_bench 'ks_base ks_catalog ks_outside ks_http ks_machine ks_routes ks_render anyhow'
cat > src/main.rt <<'END'
//! Does what the first word says as often as the second: reads requests of its standard input to their commands, renders
//! responses to a login, or both. It prints how many came out, the bytes of all bodies, and the time.
#![tactic(auto)]

ghost use Rattle.std.specs.Prelude.{IfOk};
ghost use Rattle.ks_machine.specs.Told.{IsTellable, IsTokenTellable};

use anyhow::{Result, bail};
use ks_base::{Id, Text};
use ks_catalog::ServiceOutList;
use ks_http::{Next, Reader, Request};
use ks_machine::{BodyOut, Homed, Reply, Titled, TitledList, TokenOut};
use ks_outside::{RealSource, Source};
use ks_render::render;
use ks_routes::{Routed, Routes};
use std::alloc::Global;
use std::env;
use std::time::CpuClock;

fn id(text: &str) -> Result<Id> {
    match Id::read(text.as_bytes()) {
        Ok(id) => Ok(id),
        Err(_) => bail!("no id"),
    }
}

fn titled(alloc: Global, text: &str, name: &str) -> Result<Titled> {
    Ok(Titled {
        id: id(text)?,
        name: Text::of(alloc, name)?,
    })
}

fn homed(alloc: Global, text: &str, name: &str) -> Result<Homed> {
    Ok(Homed {
        id: id(text)?,
        name: Text::of(alloc, name)?,
        domain: titled(alloc, "default", "Default")?,
    })
}

/// The token of a login with a password on a project, in which the user has one role.
fn token(alloc: Global, made: bool) -> Result<TokenOut>
    ensures { IfOk result (λ made. IsTokenTellable made) }
{
    let mut roles = TitledList::new(alloc);
    roles.push(titled(alloc, "b0000000000000000000000000000001", "admin")?)?;
    let text = "gAAAAxxxxxxxxxxxxxxxxxxxxxxxxxxxxxxxxxxxxxxxxxxxxxxxxxxxxxxxxxxxxxxxxxxxxxxxxxxxxxxxxxxxxxxxxxxxxxxxxxxxxxxxxxxxxxxxxxxxxxxxxxxxxxxxxxxxxxxxxxxxxxxxxxxxxxxxxxxxxxxxxxxxxxxxxxxxxxxxxxxxxxxxxxxxxxxxxxxxx";
    Ok(TokenOut {
        text: Text::of(alloc, text)?,
        made,
        audit: [0, 1, 2, 3, 4, 5, 6, 7, 8, 9, 10, 11, 12, 13, 14, 15],
        chain: None,
        methods: 1,
        issued: 499_162_800,
        expires: 499_166_400,
        user: homed(alloc, "00112233445566778899aabbccddeeff", "ann")?,
        project: Some(homed(alloc, "a0000000000000000000000000000001", "demo")?),
        domain: None,
        trust: None,
        roles: Some(roles),
        system: false,
        catalog: Some(ServiceOutList::new(alloc)),
    })
}

fn reply(alloc: Global, made: bool) -> Result<Reply>
    ensures { IfOk result (λ made. IsTellable made) }
{
    Ok(Reply::Ok(BodyOut::Token(token(alloc, made)?)))
}

/// The bytes of the body of the response, or none for want of memory.
fn rendered(alloc: Global, reply: &Reply, url: &Text) -> Option<u64>
    requires { IsTellable reply.now }
{
    let Ok(response) = render(alloc, reply, url, false, false) else {
        return None;
    };
    Some(response.body.as_slice().len() as u64)
}

/// How many responses were rendered, and the bytes of their bodies.
fn responses(alloc: Global, reply: &Reply, url: &Text, times: u32) -> (u32, u64)
    requires { IsTellable reply.now }
{
    let mut count: u32 = 0;
    let mut bytes: u64 = 0;
    for _ in 0..times {
        if let Some(length) = rendered(alloc, reply, url) {
            count = count.wrapping_add(1);
            bytes = bytes.wrapping_add(length);
        }
    }
    (count, bytes)
}

/// Whether the request asks for something.
fn asks(alloc: Global, routes: &Routes, request: &Request) -> bool {
    matches!(routes.command(alloc, request), Routed::Command(_))
}

/// How many requests of the input had a command.
fn logins<S: Source>(alloc: Global, input: &mut S, times: u32) -> Result<(u32, u64)> {
    let routes = Routes::new(alloc)?;
    let mut reader = Reader::new(alloc)?;
    let mut count: u32 = 0;
    for _ in 0..times {
        let Next::Request(request) = reader.next_request(alloc, input) else {
            return Ok((count, 0));
        };
        if asks(alloc, &routes, &request) {
            count = count.wrapping_add(1);
        }
    }
    Ok((count, 0))
}

/// How many requests of the input had a command and were answered by this reply, and the bytes of the bodies.
fn validations<S: Source>(
    alloc: Global,
    input: &mut S,
    reply: &Reply,
    url: &Text,
    times: u32,
) -> Result<(u32, u64)>
    requires { IsTellable reply.now }
{
    let routes = Routes::new(alloc)?;
    let mut reader = Reader::new(alloc)?;
    let mut count: u32 = 0;
    let mut bytes: u64 = 0;
    for _ in 0..times {
        let Next::Request(request) = reader.next_request(alloc, input) else {
            return Ok((count, bytes));
        };
        if asks(alloc, &routes, &request)
            && let Some(length) = rendered(alloc, reply, url)
        {
            count = count.wrapping_add(1);
            bytes = bytes.wrapping_add(length);
        }
    }
    Ok((count, bytes))
}

fn main(rt: HostRuntime) -> Result<()> {
    let alloc = rt.alloc();
    let mut args = env::args(&rt)?;
    let _program = args.next();
    let Some(word) = args.next() else {
        return Ok(());
    };
    let Some(times) = args.next() else {
        return Ok(());
    };
    let times = times.as_str().parse::<u32>().unwrap_or(0);
    let url = Text::of(alloc, "http://127.0.0.1:5000")?;
    let mut input = RealSource::new(rt.stdin());
    let login = reply(alloc, true)?;
    let validation = reply(alloc, false)?;
    let start = rt.process_cpu_time()?.as_nanos();
    let (count, bytes) = match word.as_str() {
        "login" => logins(alloc, &mut input, times)?,
        "response" => responses(alloc, &login, &url, times),
        "validation" => validations(alloc, &mut input, &validation, &url, times)?,
        _ => (0, 0),
    };
    let end = rt.process_cpu_time()?.as_nanos();
    println!(rt; "{count} {bytes} {start} {end}")?;
    Ok(())
}
END
run
program=$PWD/out/wire_bench

# once WORD N: a run that does it so often, of which `said` is what it wrote and `counts` what callgrind counted, of the
# function `inside` alone where there is one.
inside=
once() {
    valgrind --tool=callgrind --callgrind-out-file="$work/counts" ${inside:+"--toggle-collect=$inside"} "$program" "$1" "$2" \
        < "$work/$1.$2" > "$work/said" 2> "$work/log"
    [ "$(cut -d' ' -f1 "$work/said")" = "$2" ] || { echo "wire: not each $1 came out" >&2; exit 1; }
}

# instructions: those of the last run.
instructions() { sed -n 's/^.*Collected : //p' "$work/log"; }

# taken: how often the last run took memory.
taken() {
    awk '
        /^c?fn=/ { id = $1; sub(".*=", "", id); if (NF > 1) name[id] = $2 }
        /^cfn=/ { called = id }
        /^calls=/ && name[called] ~ /^(malloc|calloc|realloc|aligned_alloc|posix_memalign)$/ { sub(".*=", "", $1); sum += $1 }
        END { print sum + 0 }
    ' "$work/counts"
}

# each WORD: of one, the instructions and how often it takes memory.
each() {
    once "$1" 1000
    few=$(instructions)
    few_taken=$(taken)
    once "$1" 11000
    many=$(instructions)
    many_taken=$(taken)
    echo "$(((many - few) / 10000)) instructions, memory taken $(((many_taken - few_taken) / 10000)) times"
}

echo "from the bytes of a login's request to its command: $(each login)"
echo "the response to a login: $(each response)"
echo "of that, its body, behind the two pieces of room for it: $(inside=ks_render::bodies::write_body; each response)"
echo "from the bytes of a validation's request to its response: $(each validation)"

# Times, which callgrind does not tell. Each body has 497 bytes.
for word in login response validation; do
    for _ in 1 2 3 4 5 6 7; do $one "$program" "$word" 11000 < "$work/$word.11000"; done > "$work/times"
    awk -v word="$word" '
        word != "login" && $2 != $1 * 497 { print "wire: a body is of another length" > "/dev/stderr"; exit 1 }
        { time = ($4 - $3) / $1; if (NR == 1 || time < best) best = time }
        END { printf "%s: %.2f microseconds\n", word, best / 1000 }
    ' "$work/times"
done
