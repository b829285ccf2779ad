import celtisdarts

TEXT = """\
crate base
trait Show
impl Show for u8
crate a uses base
struct V<T>(T)
impl<T> Show for V<T> where T: Show
"""

workspace = celtisdarts.Workspace(TEXT)
session = workspace.session("a")
print("crate a:", session.check_crate())
for question in ("V<u8>: Show", "V<bool>: Show", "fn(u8): Fn<?x>, ?x: Clone"):
    print(f"{question}:", session.prove(question))
print("bool: Show:", session.refute("bool: Show"))
try:
    session.prove("W: Show")
except celtisdarts.QuestionFault as fault:
    print("W: Show:", fault)
