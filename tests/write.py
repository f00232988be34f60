"""Makes anew what is stored of the tools and of the kernel's answers: transcripts, blocks of documents,
pictures."""
import sys
from pathlib import Path

sys.path[:0] = [str(Path(__file__).parent / folder) for folder in ("tools", "kernel")]
import test_documents
import test_kernel
from common import EXAMPLES, PICTURES, TOP, TRANSCRIPTS, run

for script in TRANSCRIPTS.glob("*.annotated"):
    script.with_suffix(".transcript").write_text(run([script])[1])
PICTURES.mkdir(exist_ok=True)
for script in EXAMPLES.glob("*.script"):
    run(["--svg", PICTURES / f"{script.stem}.svg", script])
for document in (test_documents, test_kernel):
    document.write()
for name, picture in (("plan", "plan"), ("refused", "plan-refused")):
    run(["plan", f"examples/{name}.toml", "--svg", PICTURES / f"{picture}.svg"], cwd=TOP)
