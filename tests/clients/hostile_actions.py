#!/usr/bin/env python3
"""hostile_actions.py PROGRAM [--launcher L | --sandbox | --slurm | --slurm-sandbox] [--made-trees SIZE] [--case NAME ..]
[--user WHO] [--slow FACTOR] [--seconds N]: actions that mean harm, beside a team.

PROGRAM is the built `remoted`. Each case is a server of two instances. `red` has actions executed that try to read,
stop or remove what is not theirs, or a start finds what it should not take; `blue` calls GetCapabilities and
FindMissingBlobs all the while, and has actions executed: its answers have to be right each time, and no call of it may
wait longer than 250 ms. As root, each case is tried once with a server of root and once with one of a plain user; else
with one of this user. What cannot be tried is skipped, and the line says why.

Programs are started by the server itself; by the launcher L; by `launchers/sandbox` (--sandbox); on a cluster that is
made for it (--slurm; slurm_cluster.py says what that needs); or there in a sandbox (--slurm-sandbox). Where programs see
nothing of the host but their folder, what an action tries does not reach the host: that is looked at then. What any
launcher has started has to end with its run, or with its server. With --made-trees servers have trees, too.

A line for each: `ok` with what holds and how long blue's slowest call waited, or `FAILED` with what was found. It ends
with `N passed, M failed`, and with status 1 where one failed. --case runs those named alone, --list lists them, --user
has servers of one user alone. --slow stretches all limits of time, for a program that is built without optimisation or
a machine that is busy. --seconds (60) is how long a daemon exchanges an output with a FIFO; other exchanges go on for a
part of that. It needs Debian's `python3` at /usr/bin, and leaves no process and no folder.
"""

import argparse

import cases
import hostile_folders as folders
import hostile_programs as host_programs
import hostile_removal as removal
import hostile_starts as starts
import ways

CASES = [
    folders.former_program,
    folders.links_of_the_tree,
    folders.links_of_a_program,
    folders.root_replaced,
    folders.odd_outputs,
    folders.fifos_exchanged,
    folders.links_exchanged,
    folders.devices_exchanged,
    folders.removal_exchanged,
    folders.leased,
    folders.starved,
    folders.held_up,
    removal.deep_chain,
    removal.wide_folders,
    removal.deep_paths,
    removal.many_outputs,
    removal.links_listed,
    removal.emptied_directories,
    removal.files_of_pieces,
    removal.large_directory,
    removal.dear_although_little,
    removal.remover_killed,
    removal.remover_stopped,
    removal.names_of_removal,
    removal.not_removable,
    host_programs.lines_unread,
    host_programs.lines_unheard,
    host_programs.lines_unheard_from_the_start,
    host_programs.helper_stopped,
    host_programs.helper_killed,
    host_programs.number_taken,
    host_programs.helper_lines,
    host_programs.opener_stopped,
    host_programs.opener_killed,
    host_programs.fork_bomb,
    host_programs.fork_bomb_alone,
    host_programs.long_path,
    host_programs.own_streams,
    starts.two_servers,
    starts.foreign_folder,
    starts.folder_by_link,
    starts.shared_folder,
    starts.odd_numbers,
    starts.unusable_folder,
    starts.full_disk,
    starts.full_at_its_end,
    starts.no_slots,
    starts.children_ignored,
    starts.few_descriptors,
    starts.no_sessions,
]


def main():
    parser = argparse.ArgumentParser(description=__doc__, formatter_class=argparse.RawDescriptionHelpFormatter)
    parser.add_argument("program")
    cases.add_options(parser, CASES)
    ways.add_made_trees(parser)
    cases.carry_out(CASES, parser.parse_args())


main()
