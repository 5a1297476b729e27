"""Programs that builds use, as actions: what each needs of a host, its text, and what it has to print.

Each is a shell's text that runs in the folder of its sources, with `PATH`, `LC_ALL=C.UTF-8` and no other variables.
"""

import dataclasses
import os
import time
import typing

MADE = 'class A { public static void main(String[] words) { System.out.println("made"); } }'

BINDS = """
import java.net.*;
public class Binds {
  public static void main(String[] words) throws Exception {
    InetAddress here = InetAddress.getByName("localhost");
    try (ServerSocket server = new ServerSocket(0, 50, here); Socket peer = new Socket(here, server.getLocalPort())) {
      System.out.println(server.getInetAddress() + " " + peer.isConnected() + " " + InetAddress.getLocalHost());
    }
  }
}
"""

TRUSTS = """
import java.security.KeyStore;
import javax.net.ssl.*;
public class Trusts {
  public static void main(String[] words) throws Exception {
    TrustManagerFactory made = TrustManagerFactory.getInstance(TrustManagerFactory.getDefaultAlgorithm());
    made.init((KeyStore) null);
    System.out.println(((X509TrustManager) made.getTrustManagers()[0]).getAcceptedIssuers().length > 9);
    System.out.println(System.getProperty("user.name").equals(words[0]) + " " + System.getProperty("user.home"));
    java.time.ZoneId zone = java.time.ZoneId.systemDefault();
    System.out.println(zone.getRules().getOffset(java.time.Instant.now()).getTotalSeconds());
  }
}
"""

THREADS = """
#include <atomic>
#include <iostream>
#include <thread>
#include <vector>
int main() {
  std::atomic<int> sum{0};
  std::vector<std::thread> all;
  for (int n = 1; n <= 8; n++) all.emplace_back([&sum, n] { sum += n; });
  for (auto &each : all) each.join();
  std::cout << sum << std::endl;
}
"""

OF_GO = """
package main

import (
	"fmt"
	"net"
	"os/exec"
	"os/user"
)

func main() {
	done := make(chan int)
	for n := 1; n <= 8; n++ {
		go func(n int) { done <- n }(n)
	}
	sum := 0
	for n := 1; n <= 8; n++ {
		sum += <-done
	}
	listener, err := net.Listen("tcp", "localhost:0")
	told, _ := exec.Command("echo", "child").Output()
	who, fault := user.Current()
	fmt.Print(sum, listener != nil, err, who != nil, fault, " ", string(told))
}
"""

GO_SAYS = "36 true <nil> true <nil> child\n"

OF_NODE = """
const http = require('http'), { Worker, isMainThread, parentPort } = require('worker_threads');
if (isMainThread) {
  const server = http.createServer((request, answer) => answer.end('answered'));
  server.listen(0, 'localhost', () => http.get({ host: 'localhost', port: server.address().port }, answer => {
    answer.on('data', text => new Worker(__filename).on('message', word => {
      console.log(String(text), word, require('os').userInfo().username.length > 0, require('os').tmpdir());
      server.close();
    }));
  }));
} else parentPort.postMessage('worked');
"""

OF_PYTHON = """
import asyncio, concurrent.futures, multiprocessing, socket, sqlite3, ssl, tempfile, time, zoneinfo, sys

def doubled(n):
    return 2 * n

async def by_unix():
    path = tempfile.mkdtemp() + "/socket"
    async def answer(_, writer):
        writer.write(b"told")
        writer.close()
    async with await asyncio.start_unix_server(answer, path):
        reader, writer = await asyncio.open_unix_connection(path)
        told = await reader.read()
        writer.close()
        return told

if __name__ == "__main__":
    print(len(ssl.create_default_context().get_ca_certs()) > 9)
    with multiprocessing.Pool(2) as pool, concurrent.futures.ProcessPoolExecutor(2) as other:
        print(pool.map(doubled, range(3)), list(other.map(doubled, range(3))))
    with multiprocessing.Manager() as manager:
        print(manager.list([1, 2]))
    with tempfile.NamedTemporaryFile() as file:
        print(file.name.startswith("/tmp/"))
    server = socket.create_server(("localhost", 0))
    print(socket.gethostbyname("localhost"), socket.gethostbyname(socket.gethostname()).startswith("127."))
    print(socket.create_connection(("localhost", server.getsockname()[1])).getpeername()[0])
    print(asyncio.run(by_unix()), sqlite3.connect("a.db").execute("select 1").fetchall())
    print(time.localtime().tm_gmtoff, zoneinfo.ZoneInfo("Europe/Berlin").key)
"""

PYTHON_SAYS = """True
[0, 2, 4] [0, 2, 4]
[1, 2]
True
127.0.0.1 True
127.0.0.1
b'told' [(1,)]
{offset} Europe/Berlin
"""

OF_PERL = """
use strict; use warnings; use IO::Socket::INET; use File::Temp qw(tempfile); use POSIX qw(strftime);
my $server = IO::Socket::INET->new(Listen => 1, LocalAddr => 'localhost', Proto => 'tcp') or die "no socket: $@";
my $child = fork() // die; if (!$child) { exit 3 } waitpid($child, 0);
my ($file, $name) = tempfile(DIR => '/var/tmp'); print $file "x\\n"; close $file;
print join(' ', $? >> 8, $server->sockport() > 0, defined getpwuid($<), defined getgrgid($( + 0), -s $name), "\\n";
"""

SEGFAULT = "int depth(int *at) { return *at; }\nint main(void) { return depth((int *)0); }\n"

GIT = """export HOME=/tmp GIT_CONFIG_NOSYSTEM=1
git init -q -b main a && cd a && git config user.name x && git config user.email x@example.com || exit
echo 1 >f && git add f && git commit -q -m one && echo 2 >f && git commit -q -a -m two && git gc -q || exit
git log --format=%s && cd .. && git clone -q a b && cat b/f && git -C a archive --format=tar HEAD | tar tf -"""

SORTS = """seq 300000 | awk '{ print ($1 * 7919) % 300007 }' >/var/tmp/unsorted || exit
sort -n -S 1M -T /var/tmp --parallel=4 /var/tmp/unsorted | tail -n 1; ls /tmp"""

MAKE = 'all: $(shell seq -f "%g.out" 20)\n%.out:\n\t@sleep 0.02; echo $* >$@\n'

TAR = """mkdir d && echo 1 >d/f && chmod 640 d/f && ln -s f d/l && ln d/f d/h && truncate -s 1M d/sparse || exit
tar cSzf a.tgz d && mkdir out && tar xzf a.tgz -C out && tar tvf a.tgz | wc -l && stat -c '%a %h' out/d/f"""

CERTIFICATE = """openssl req -x509 -newkey rsa:2048 -nodes -keyout k -out c -days 2 -subj /CN=localhost \\
  -addext subjectAltName=DNS:localhost 2>/dev/null || exit
"""

OPENSSL = CERTIFICATE + "openssl verify -CApath /etc/ssl/certs -CAfile c c"

CURL = (
    CERTIFICATE
    + """openssl s_server -quiet -www -accept 127.0.0.1:4433 -cert c -key k </dev/null >/dev/null 2>&1 &
for n in 1 2 3 4 5 6 7 8 9; do
  curl -s -o /dev/null --cacert c https://localhost:4433/ && break || sleep 0.3
done
curl -s -o /dev/null --cacert c https://localhost:4433/; echo $?
curl -s -o /dev/null https://localhost:4433/; echo $?"""
)

GPG = """export GNUPGHOME=/tmp/keys && mkdir -m 700 /tmp/keys || exit
gpg -q --batch --passphrase '' --quick-gen-key x default default never 2>&1 && gpg -q --batch --detach-sign f 2>&1
gpg --verify f.sig f 2>&1 | grep -c 'Good signature'"""

CMAKE = """cmake_minimum_required(VERSION 3.13)
project(x CXX)
find_package(Threads REQUIRED)
add_executable(p p.cc)
target_link_libraries(p Threads::Threads)
enable_testing()
add_test(NAME t COMMAND p)
"""
CMAKE_RUN = "cmake -G Ninja -B b . >log && ninja -C b >log && ctest --test-dir b >log && b/p"

SINE = '#include <math.h>\n#include <stdio.h>\nint main(void) { printf("%.2f\\n", sin(1)); }\n'

GDB = """gcc -g -O0 -o p p.c && gdb -q -batch -ex run -ex bt ./p 2>/dev/null |
  grep -o -e 'received signal SIGSEGV' -e 'depth (at=0x0)' -e 'main ()' | sort -u"""
GDB_SAYS = "depth (at=0x0)\nmain ()\nreceived signal SIGSEGV\n"

USER = "python3 -c 'import getpass; print(getpass.getuser())' && id -un && whoami"
SERVICES = """python3 -c 'import socket as s; print(s.getservbyname("http"), s.getprotobyname("udp"))'"""
TABLE = "sqlite3 a.db 'create table t(a); insert into t values(7); select * from t'"
STRACE = "strace -f -o log sh -c '/bin/true; :' && grep -c 'exited with 0' log"


@dataclasses.dataclass
class Program:
    """A text for a shell, and what it prints: these words, or what a test takes."""

    name: str
    needs: list
    script: str
    says: object
    files: dict = dataclasses.field(default_factory=dict)

    def is_right(self, code, stdout):
        says = self.says(stdout) if isinstance(self.says, typing.Callable) else stdout == self.says
        return code == 0 and says


def is_name(stdout):
    """Whether it is one name, on each line the same."""
    names = set(stdout.split())
    return len(names) == 1 and not names.pop().isdecimal()


def is_public(stdout):
    """Whether of /etc nothing is seen but what a launcher may show, and no private keys."""
    names = {"alternatives", "group", "hosts", "ld.so.cache", "ld.so.conf", "ld.so.conf.d", "localtime"}
    names |= {"nsswitch.conf", "passwd", "protocols", "services", "ssl", "certs", "openssl.cnf"}
    return all(name in names or name.startswith("java-") for name in stdout.split())


def in_java():
    zone = time.localtime().tm_gmtoff
    return [
        Program("javac and java", ["javac"], "javac -d out A.java && java -cp out A", "made\n", {"A.java": MADE}),
        Program(
            "a Java archive that is run",
            ["javac", "jar"],
            "javac A.java && jar cfe a.jar A A.class && java -jar a.jar",
            "made\n",
            {"A.java": MADE},
        ),
        Program(
            "a Java program that binds localhost",
            ["javac"],
            "javac Binds.java && java Binds",
            lambda stdout: stdout.startswith("localhost/127.0.0.1 true ") and stdout.endswith("/127.0.0.1\n"),
            {"Binds.java": BINDS},
        ),
        Program(
            "Java's certificates, user and zone",
            ["javac"],
            'javac Trusts.java && java Trusts "$(id -un)"',
            f"true\ntrue /tmp\n{zone}\n",
            {"Trusts.java": TRUSTS},
        ),
    ]


def compiled():
    return [
        Program("gcc", ["gcc"], "gcc -O2 -g -o p p.c -lm && ./p", "0.84\n", {"p.c": SINE}),
        Program("g++ with threads", ["g++"], "g++ -O1 -pthread -o p p.cc && ./p", "36\n", {"p.cc": THREADS}),
        Program("clang++", ["clang++"], "clang++ -O1 -pthread -o p p.cc && ./p", "36\n", {"p.cc": THREADS}),
        Program("cmake", ["cmake", "ninja", "g++"], CMAKE_RUN, "36\n", {"CMakeLists.txt": CMAKE, "p.cc": THREADS}),
        Program("go", ["go"], "GOCACHE=/tmp/c GO111MODULE=off go build -o p p.go && ./p", GO_SAYS, {"p.go": OF_GO}),
        Program("gdb", ["gdb", "gcc"], GDB, GDB_SAYS, {"p.c": SEGFAULT}),
        Program("strace", ["strace"], STRACE, "2\n"),
        Program("make -j8", ["make"], "make -j8 && cat *.out | sort -n | tail -n 1", "20\n", {"Makefile": MAKE}),
    ]


def interpreted():
    zone = time.localtime().tm_gmtoff
    return [
        Program("node", ["node"], "node p.js", "answered worked true /tmp\n", {"p.js": OF_NODE}),
        Program("python", ["python3"], "python3 p.py", PYTHON_SAYS.format(offset=zone), {"p.py": OF_PYTHON}),
        Program("perl", ["perl"], "perl p.pl", "3 1 1 1 2\n", {"p.pl": OF_PERL}),
        Program("the user's name", ["python3"], USER, is_name),
        Program("the group's name", [], "id -gn && stat -c %G f", is_name, {"f": "1"}),
        Program("services and protocols", ["python3"], SERVICES, "80 17\n"),
        Program("sqlite3", ["sqlite3"], TABLE, "7\n"),
    ]


def other_tools():
    local = "/etc/localtime"
    zone = time.strftime("%z\n") + (os.readlink(local) + "\n" if os.path.islink(local) else "")
    return [
        Program("git", ["git", "tar"], GIT, "two\none\n2\nf\n"),
        Program("tar", ["tar", "gzip"], TAR, "5\n640 2\n"),
        Program("sort in /var/tmp", ["awk"], SORTS, "300006\nunsorted\n"),
        Program("date in the host's zone", [], f"date +%z; [ ! -L {local} ] || readlink {local}", zone),
        Program("openssl", ["openssl"], OPENSSL, "c: OK\n"),
        Program("curl", ["curl", "openssl"], CURL, "0\n60\n"),
        Program("gpg", ["gpg"], GPG, "1\n", {"f": "text"}),
        Program("locales", ["locale"], "locale charmap && printf 'b\\n\u00e4\\n' | sort | head -n 1", "UTF-8\nb\n"),
        Program("what there is of /etc", [], "ls -A /etc && ls -A /etc/ssl", is_public),
    ]


def all_programs():
    return [*in_java(), *compiled(), *interpreted(), *other_tools()]
