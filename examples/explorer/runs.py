"""The runs of the page, each with questions: what is asked, the answer, and where the page shows it: behind which
step, in which order of a commit's writes, on which disk, and whether writes are lost there."""

RUNS = [
    {
        "title": "One creation",
        "script": ["0 create 2"],
        "schedule": "0!",
        "size": 48, "ninodes": 16,
        "questions": [
            {"question": "Which write decides whether the file survives?",
             "answer": "The header's: a stop before it leaves no file, a stop behind it the file, though no block is at home yet.",
             "step": 6},
            {"question": "What does recovery do where the stop comes behind the home's write?",
             "answer": "It copies the same block home once more: nothing changes.", "step": 7},
        ],
    },
    {
        "title": "Two creations in one transaction",
        "script": ["0 create 2", "1 create 2"],
        "schedule": "0 1 0 1 0 1 0! 1!",
        "size": 48, "ninodes": 16,
        "questions": [
            {"question": "Process 0 has its answer. Is its file safe?",
             "answer": "Not yet. The answer names a group, and is safe once that is committed.", "step": 7},
            {"question": "Can a stop keep the first file and not the second?",
             "answer": "No: both are in one group.", "step": 11},
        ],
    },
    {
        "title": "Two processes write one file",
        "script": ["0 create 2", "0 write 1 0 746f2062652c20", "1 write 1 7 6f72206e6f7420746f2062650a"],
        "schedule": "0! 0 1 0! 1!",
        "size": 48, "ninodes": 16,
        "questions": [
            {"question": "Break it: homes before the header. Where?",
             "answer": "Between the homes: the bitmap says that a block is used, and no inode names it yet.",
             "order": "homes", "step": 38},
            {"question": "Break it: the header before the log blocks. What does recovery copy?",
             "answer": "What stood in the log before: the old group's inodes, over the bitmap.",
             "order": "header", "step": 35},
            {"question": "A disk that holds writes back, synced after each part: which choices break it?",
             "answer": "None. At the header's write both outcomes are right: the group is kept or not.",
             "holding": "synced", "step": 38},
            {"question": "The same disk, never synced: find writes whose loss breaks it.",
             "answer": "The header gets through, and a log block does not.",
             "holding": "never", "step": 38, "loses": True},
        ],
    },
    {
        "title": "A file of thirteen blocks: the block of addresses",
        "script": ["0 create 2"] + ["0 fill 1 %d 3072 61" % (3072 * piece) for piece in range(4)] + ["0 fill 1 12288 1024 62"],
        "schedule": "0! 0! 0! 0! 0! 0!",
        "size": 64, "ninodes": 16,
        "questions": [
            {"question": "The thirteenth block needs two blocks. Without a log, which half can a stop leave?",
             "answer": "Bits set for blocks that no inode names: lost blocks.", "order": "none", "step": 187},
        ],
    },
    {
        "title": "Its removal",
        "script": ["0 create 2", "0 fill 1 0 3072 61", "0 fill 1 3072 3072 61", "0 remove 1"],
        "schedule": "0! 0! 0! 0!",
        "size": 48, "ninodes": 16,
        "questions": [
            {"question": "Blocks are freed one by one. Can a stop leave a file that names freed blocks?",
             "answer": "Not with the log: all is in memory until the one header.", "step": 100},
            {"question": "And without the log?",
             "answer": "The bitmap is written before the inode: the file names a block that is free.",
             "order": "none", "step": 108},
        ],
    },
    {
        "title": "Three want one file",
        "script": ["0 create 2", "0 write 1 0 61", "1 write 1 0 62", "2 read 1 0 1"],
        "schedule": "0! 0 0 0 1 1 1 2 2 0 1 2 0! 1! 2! 1 2",
        "size": 48, "ninodes": 16,
        "questions": [
            {"question": "Who waits for whom, and what is the file at the end?",
             "answer": "1 and 2 wait for the inode that 0 holds; then 1 writes, and 2 reads 62.", "step": 20},
        ],
    },
]
