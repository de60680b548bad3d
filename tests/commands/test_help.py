"""The help of each command."""

from support.every_command import BY_NAME, EVERY
from support.program import ProgramTest

# What the long help of each command contains: what it reads and prints, its refusals, its error lines, an example.
HELPS = {
    "choose": [
        "  image IMAGE VERSION COUNTER FLOOR\n", "  image 0 1.0.0+0 0 0\n  request 2.0.0+0 0\n  needs 1 2.0.0+0\n",
        "  needs 0 2.0.0+0\n", "  take 0 2.0.0+0\n", "  bootswap choose table.txt\n",
    ],
    "check": ["  refuse 0 older\n", "  bootswap check table.txt report.txt\n"],
    "plan": [
        "  --request <I=FILE>\n", "  --summary\n", "  --merge\n",
        "  device truck-1\n  image 0 1.0.0+0 0 0\n  request 2.0.0+0 0\n",
        "  device truck-2\n  run 0 1.0.0+0\n  refuse 0 counter\n", "  bad-line N ", "  too-long ", "  not-valid ",
        "COUNT FIRST KEY", "`fleet line 1`", "`image 0 requested twice`", "  bootswap plan --merge 1.txt 2.txt\n",
    ],
    "image": ["refused 10 BadDigest", "  bootswap image firmware.img\n"],
    "manifest": [
        '  {"sector":512,"sectors":[2,2],\n', '  {"manifest-version":1,"sequence-number":1,\n',
        "refused 4 WrongVendor", "refused map 1 BadSector", "  bootswap manifest device.json manifest.json\n",
    ],
    "make-device": [
        "  bootswap make-device --sector 512 --slots 2,2 --vendor python.org \\\n      --class sensor > device.json\n",
        '   "class-id":"9ed1b5d5-f629-5008-93c6-1958ba5b9953"}\n',
        "  slot 0 primary 0 1024\n  trailer 0 primary 1024 512\n", "  largest 1 1024\n  flash 8192\n",
        "  --trial-boots <N>\n", "  refused map 4 TooLarge ",
    ],
    "make-image": [
        "  bootswap make-image a.img body.bin --version 2.0.0 --counter 5 \\\n      --needs '1 2.0.0'\n",
        "security-counter", "  --force\n", "  length 104\n", "  refused 6 BadGroups ", "OUT comes before BODY",
        "`NAME is no image`",
    ],
    "make-manifest": [
        '  {"manifest-version":1,"sequence-number":1,\n', "A boot tries the images that it takes as one set.",
        "refused 6 NoComponent", "refused 7 RepeatedComponent", "refused boot 5 RunningDamaged",
        "refused map CODE NAME", "  bootswap make-manifest device.json --sequence 2 --test 0=a.img > manifest.json\n",
    ],
    "extract": [
        "  --force\n", "  bootswap extract device.json flash.bin 0 primary running.img\n", "refused CODE NAME",
        "`no image 2`", "`NAME is no image`",
    ],
    "provision": [
        "refused boot 5 RunningDamaged 1", "refused boot 6 InvalidSet", "image count", "image 1 too big",
        "`flash size` ", "a block device ", "  4  ", "error: flash file",
        "  bootswap provision device.json flash.bin a.img b.img\n",
    ],
    "show": [
        "  state trial ", "`back-settle`", "  set 0 1 ", "  left 1 ", "  sequence 1 ", "  floor 0 0 ",
        "  swap 0 revert ", "refused boot 4 NotProvisioned", "  bootswap show device.json flash.bin\n",
    ],
    "slots": [
        "  slot 0 primary ", "  erased ", "  damaged 1 BadMagic ", "  request 0 test ", "  moved 0 4 of 12 ",
        "refused boot 5 RunningDamaged 0", "  bootswap slots device.json flash.bin\n",
    ],
    "run": [
        "  cut WRITE TORN\n", "`hex:00ff`", "  accept FILE ", "  piece IMAGE FILE ", "  finish IMAGE ",
        "  piece IMAGE FILE FROM COUNT ", "  withdraw IMAGE ", "  confirm IMAGE ", "  boot ", "  reset ", " done ",
        " plain ", " trial ", " permanent ", " reverted 0 1 ", "  6 trial-again 0 1 left 1\n", " cut ",
        " refused GROUP CODE NAME\n", "  3  the last reply", "  4  ", "\nWith `--durable` each write ",
        "  --durable\n", "  --strict\n", "  bootswap run --durable device.json flash.bin script.txt\n",
    ],
    "sweep": [
        "  --merge\n", "  --part <K/N>\n", "  --twice\n", "  --sample <N>\n", "  --seed <N>\n", "  --svg <FILE>\n",
        "  7 boot from 9 ttttt", "  t  it took a set on trial ", "\n  runs 547\n  end 547 uncut\n", "`half`",
        "`other COUNT cut WRITE TORN`", "`refused COUNT cut WRITE TORN`",
        "  bootswap sweep --twice --svg sweep.svg device.json script.txt a.img b.img\n",
    ],
    "codes": [
        "\n  10 BadDigest            the digest entry isn't the SHA-256",
        "\n   5 RunningDamaged       a running image isn't intact",
    ],
}


class HelpTest(ProgramTest):
    def help(self, *arguments):
        status, out, err = self.run_program(arguments)
        self.assertEqual((0, b""), (status, err), arguments)
        text = out.decode()
        wide = [it for it in text.splitlines() if len(it) > 80 and "-digest" not in it]
        self.assertEqual([], wide, "lines of more than 80 columns")
        return text

    def assert_has(self, parts, text):
        self.assertEqual([], [it for it in parts if it not in text])

    def test_short_help_has_usage_status_and_example(self):
        for it in EVERY:
            with self.subTest(f"{it.name} -h"):
                parts = [f"Usage: bootswap {it.usage}\n", "Exit status: 0 ", f"Example: bootswap {it.name}"]
                self.assert_has([*parts, "      --explain "], self.help(it.name, "-h"))

    def test_long_help_teaches_the_command(self):
        self.assertEqual({*BY_NAME}, {*HELPS})
        for it in EVERY:
            with self.subTest(f"help {it.name}"):
                text = self.help("help", it.name)
                self.assert_has([f"Usage: bootswap {it.usage}\n", "  2  usage error", *HELPS[it.name]], text)
                self.assertEqual(text, self.help(it.name, "--help"))

    def test_help_of_the_program_lists_the_commands(self):
        text = self.help("-h")
        self.assert_has(["Usage: bootswap [COMMAND]\n", "Exit status: 0 done, 1 refused, 2"], text)
        self.assert_has([f"\n  {it:13}  " for it in BY_NAME], text)
        parts = ["A bootloader core", "Usage: bootswap [COMMAND]\n", "  2  usage error", "  4  the flash file"]
        self.assert_has([*parts, "  bootswap run device.json flash.bin script.txt\n"], self.help("--help"))
        self.assertEqual(self.help("--help"), self.help("help"))

    def test_help_of_help_lists_its_topics(self):
        parts = ["Usage: bootswap help [COMMAND]...\n", "  man  ", "  completions  "]
        self.assert_has(parts, self.help("help", "help"))
