"""What the scripts share that compare the program with node: their words, how node is asked, and how differences are told."""
import argparse
import json
import os
import subprocess

TOP = os.path.dirname(os.path.dirname(os.path.abspath(__file__)))


def words_of(document):
    """The words that each of these scripts takes."""
    words = argparse.ArgumentParser(description=document, formatter_class=argparse.RawDescriptionHelpFormatter)
    words.add_argument("--seed", type=int, default=2026)
    words.add_argument("--program", default=f"{TOP}/regexp")
    return words


def ask_node(script, asked):
    """What a script of node writes, which reads what it is asked. Both are JSON."""
    ran = subprocess.run(["node", "-e", script], input=json.dumps(asked), stdout=subprocess.PIPE, text=True, check=True)
    return json.loads(ran.stdout)


def tell(differences):
    """Tells how many differences there are, and each of them. What it gives is the status to end with."""
    print(f"{len(differences)} differences")
    for difference in differences:
        print(difference)
    return 1 if differences else 0
