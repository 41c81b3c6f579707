"""What connections of one pubd do, and what they do to one another. Each case answers what is wrong, a line each."""
import os
import pathlib
import struct
import subprocess
import sys
import time

from asking import (
    a_slot_is_dropped_once_its_stream_has_ended,
    questions_are_answered_where_they_may_be,
    questions_are_refused_where_they_may_not_be,
    texts_near_questions_are_refused,
)
from authentication import (
    a_right_password_lets_its_user_in,
    a_user_has_the_rights_of_its_line,
    hostile_exchanges_let_nobody_in,
    nobody_learns_of_users_by_time,
    passwords_are_read_again,
    psql_asks_for_a_password_and_gives_it,
    strangers_shut_nobody_out,
)
from beginning import a_start_ahead_of_its_slot_is_refused, a_stream_tells_where_it_is, wrong_keepalive
from caching import (
    a_cache_holds_up_nothing_that_it_is_not_sent,
    a_cache_holds_what_was_committed,
    another_system_is_refused_by_a_cache,
)
from clocks import a_client_sees_clocks_of_its_own_time, a_follower_tells_the_time_whatever_its_server_tells
from closing import an_acknowledgement_holds_over_a_blocked_write, an_acknowledgement_holds_over_a_close
from connection import STARTUP, Connection, Refused, keepalive, refusal_of_one_more, status
from copying import a_copy_and_its_stream_have_each_row_once, what_cannot_be_copied_is_refused
from crowds import sixteen_clients_at_sixteen_slots, sixteen_streams_tell_the_same_of_eight_scripts
from driving import (
    a_bad_line_is_answered_like_any_other,
    a_driven_server_ends_with_its_input,
    a_driven_server_ends_with_its_input_and_its_connections,
    a_wait_has_its_time,
    each_line_is_answered_as_it_comes,
    lines_that_steer_pass_one_that_waits,
    texts_have_escapes_and_commits_the_time,
    words_of_the_command_line_are_read,
)
from edges import a_slow_reader_of_the_page_holds_up_nobody, closed_descriptors_are_nobody_s, nobody_waits_for_a_reader_of_what_is_told
from extended import (
    a_frame_of_an_extended_query_has_its_bounds,
    a_stream_takes_no_extended_query,
    an_extended_query_is_refused_and_its_session_goes_on,
)
from filling import (
    a_slot_that_holds_too_much_is_given_up,
    a_slot_that_lags_holds_the_log,
    a_small_log_never_fills,
)
from followers import (
    a_refusal_without_a_reason_is_one_all_the_same,
    acknowledgements_follow_what_was_printed,
    messages_are_asked_for_by_an_option,
    quotes_stand_in_names_and_end_none,
    restarts_lose_and_repeat_nothing,
    what_a_server_says_is_one_line,
)
from json_lines import (
    an_output_of_the_other_form_is_left_alone,
    cuts_and_kills_lose_and_repeat_no_line_of_json,
    lines_of_json_tell_a_table_as_it_was,
    lines_of_json_tell_what_a_script_did,
    lines_of_json_tell_what_a_server_sends,
    lines_of_json_tell_when_they_were_sent,
)
from limits import (
    a_client_that_says_nothing_is_asked_for_by_the_system,
    a_client_too_many_is_heard_out,
    a_column_of_no_type_is_named,
    a_refusal_is_told_with_what_was_asked,
    a_refusal_names_what_it_is_of,
    a_startup_has_its_time,
    a_word_that_is_none_is_told,
    an_end_is_told_with_its_cause,
    as_many_are_served_as_may_be,
    only_what_is_asked_for_is_told,
    what_is_told_of_an_address_is_bounded,
    why_a_connection_is_not_taken_is_told,
)
from large import (
    a_log_that_is_nearly_full_is_told_of,
    a_stream_whose_chunks_run_short_is_told_of,
    a_transaction_that_is_too_large_is_passed_once_it_is_undone,
)
from lasting import kills_leave_a_beginning_of_what_was_answered_from_memory, kills_lose_nothing_that_was_answered
from lasting_disks import (
    a_file_at_its_limit_refuses_commits_and_loses_none,
    a_full_disk_refuses_commits_and_loses_none,
    a_log_longer_than_its_records_goes_on,
    a_small_log_in_a_folder_never_fills,
)
from lasting_files import (
    a_damaged_byte_is_told_or_ends_the_log,
    a_file_that_is_cut_anywhere_has_a_beginning,
    a_file_that_is_no_log_is_refused,
    a_folder_is_made_and_has_one_server,
    a_folder_of_another_log_is_refused,
)
from lasting_slots import (
    a_slot_that_was_given_up_stays_so,
    commits_from_memory_stand_over_an_end,
    rows_stand_over_kills,
    slots_stand_over_each_end,
    slots_stand_over_kills,
    slots_stay_their_owners,
)
from link import Link
from passwords import a_name_or_password_that_is_none_is_refused, a_password_becomes_the_line_of_its_user
from printed_copies import a_copy_is_printed_as_one_transaction, cuts_and_kills_copy_each_row_once, what_a_copy_asks_for_has_to_be_there
from proving import (
    a_password_is_proved_on_each_connection,
    a_password_stands_in_a_file,
    a_user_has_files_of_its_own,
    nonces_are_new,
    subcat_goes_on_only_with_a_server_that_knows_its_password,
    subcat_proves_its_password,
    subcat_proves_its_password_to_postgresql,
)
from resuming import (
    a_refusal_for_good_ends_it,
    a_silent_server_is_asked_and_then_lost,
    a_transaction_that_ends_where_it_starts_ends_it,
    an_output_of_others_is_left_alone,
    cuts_and_kills_lose_and_repeat_nothing,
    cuts_and_kills_lose_and_repeat_no_message,
    cuts_do_not_show,
    pauses_grow_and_begin_again,
)
from server import FIRST, NOBODY, Server, inserts, printed_of_inserts
from showing import what_runs_is_told
from slots import a_namesake_begins_where_it_is_made, as_many_slots_and_streams_as_are_told, places_of_dropped_slots_come_back
from steering import (
    a_client_is_asked_and_awaited,
    a_connection_is_cut_after_a_byte,
    a_script_steers_too,
    a_server_ends_in_order,
    a_stream_is_held_and_let_go,
)
from stopping import (
    a_drop_that_waits_ends_with_its_client,
    a_held_stream_is_not_cut_for_silence,
    a_signal_ends_a_server_in_order,
    a_server_that_was_stopped_goes_on,
    a_stream_that_begins_as_its_server_ends_is_whole,
    an_end_takes_ten_seconds,
    who_acknowledges_at_the_end_is_heard_out,
    who_reads_no_answer_before_its_startup_is_let_go,
    who_reads_nothing_any_more_is_let_go,
)
from systems import (
    a_follower_that_is_stopped_goes_on,
    a_start_that_lies_ahead_ends_it,
    a_system_is_chosen_at_each_start,
    an_output_that_is_taken_away_ends_it,
    an_output_that_takes_nothing_for_now_is_written_again,
    another_system_is_refused_by_an_output,
    another_system_is_refused_within_a_run,
)
from telling import messages_go_where_they_are_asked_for

HERE = pathlib.Path(__file__).resolve().parent
CONVERSATION = HERE / "conversation.frames"
STREAMS = 16
CONNECTIONS = 1000
# Of each connection.
THREADS = 2
# Threads or descriptors, for what is asked of pubd here.
ENOUGH = 200
# The greatest length of a startup, its own four bytes counted.
LONGEST_STARTUP = 10_000
# Those of a stream, as the configuration has it; each has room for two of the longest rows.
CHUNKS = 64


def a_conversation_goes_frame_by_frame(pubd, subcat):
    """A session, a slot, a stream of one transaction, a status, and the end of stream and slot."""
    wrong, early = [], None
    with Server(pubd, 1, ["begin A", "insert A public.item (1,'ab',7)", "commit A 5"], awaited=1) as server:
        client = Connection(server.port, says_nothing=True)
        for line in CONVERSATION.read_text().splitlines():
            mark, _, digits = line.partition(" ")
            if mark == ">":
                client.socket.sendall(bytes.fromhex(digits))
            elif mark == "<?":
                early = digits
            elif mark == "<":
                got = b"".join(client.frame()).hex()
                if got == early:
                    got = b"".join(client.frame()).hex()
                early = None
                wrong += [f"a frame is {got}, and not {digits}"] * (got != digits)
        client.close()
        return wrong + server.end()


def nothing_is_lost_with_connections(pubd, subcat):
    """1,000 connections, half of them broken off in a stream; then 16 streams at once, a 17th that is refused, and 16 again.

    The threads are counted while the sixteen stream: theirs, pubd's own one, since its script is over, and the one that writes what is
    told.
    """
    wrong = []
    threads = 2 + THREADS * STREAMS
    slots = [f"s{n}" for n in range(STREAMS)]
    with Server(pubd, CONNECTIONS) as server:
        first = Connection(server.port)
        for slot in slots:
            first.create(slot)
        first.close()
        for n in range(CONNECTIONS - 2 * STREAMS - 2):
            one = Connection(server.port)
            if n % 2:
                one.start_when_free(slots[n // 2 % STREAMS])
                one.break_off()
            else:
                one.ask("IDENTIFY_SYSTEM")
                one.close()
        for turn in range(2):
            streams = [Connection(server.port) for _ in slots]
            for slot, stream in zip(slots, streams):
                stream.start_when_free(slot)
            if turn == 0:
                wrong += refusal_of_one_more(server.port)
            wrong += [f"there are {server.threads()} threads, and not {threads}"] * (not server.comes_to(threads))
            for stream in streams:
                stream.break_off()
        return wrong + server.end()


def a_descriptor_that_is_not_to_be_had_costs_one_connection(pubd, subcat):
    """pubd may have 3 to 20 descriptors."""
    return under_pressure(pubd, "nofile", None)


def a_thread_that_is_not_to_be_had_costs_one_connection(pubd, subcat):
    """Its user may have 3 to 20 threads. Only root can be such a user."""
    return under_pressure(pubd, "nproc", NOBODY) if os.getuid() == 0 else []


def under_pressure(pubd, what, user):
    """Each client that came while there were few was answered or closed; later 16 streams begin, and a 17th is refused."""
    wrong = []
    for most in range(3, 21):
        with Server(pubd, CONNECTIONS, user=user) as server:
            # Once one is served, the threads that take connections are there.
            Connection(server.port).close()
            server.limit(what, most)
            clients = [Connection(server.port, says_nothing=True) for _ in range(24)]
            for client in clients:
                client.begin()
            time.sleep(0.2)
            for client in clients[::2]:
                client.close()
            server.limit(what, ENOUGH)
            wrong += [f"of {most}, a client waits for ever" for client in clients[1::2] if not client.is_answered_or_closed()]
            for client in clients[1::2]:
                client.close()
            wrong += [f"of {most}, {each}" for each in streams_of(server.port)]
            server.process.kill()
    return wrong


def streams_of(port):
    """What is wrong with 16 streams, and one more."""
    streams = [Connection(port) for _ in range(STREAMS)]
    for at, stream in enumerate(streams):
        stream.create(f"s{at}")
        stream.start_when_free(f"s{at}")
    wrong = refusal_of_one_more(port)
    for stream in streams:
        stream.close()
    return wrong


def a_silent_client_is_asked_and_then_lost(pubd, subcat):
    """A stream's client is asked within half of the time, and closed at the whole, where it says nothing; an answer is enough."""
    wrong = []
    with Server(pubd, 3, more=["--wal-sender-timeout", "1s"]) as server:
        idle, silent, polite = (Connection(server.port) for _ in range(3))
        for slot, client in (("silent", silent), ("polite", polite)):
            client.create(slot)
            client.start(slot)
            wrong += wrong_keepalive(client, FIRST)
        begun = time.monotonic()
        while time.monotonic() - begun < 3:
            kind, body = polite.frame()
            wrong += [f"a polite client gets {kind + body}"] * (body[:1] + body[17:] != b"k\1")
            polite.socket.sendall(status(FIRST))
        asked = silent.frame()
        wrong += [f"a silent client gets {asked}, and no question"] * (asked[1][:1] + asked[1][17:] != b"k\1")
        wrong += ["a silent client is not lost"] * (silent.bytes.read(1) != b"")
        idle.start_when_free("silent")
        wrong += wrong_keepalive(idle, FIRST)
        for client in (idle, silent, polite):
            client.close()
        return wrong + server.end(ended=["pubd: connection 2 closed: its client was silent for wal_sender_timeout"])


def a_client_whose_link_is_cut_is_lost(pubd, subcat):
    """It streams from another host, and answers each question; then nothing of it comes, not even its end. Its slot can be claimed
    once it was silent for long, and not before. Only root has other hosts."""
    if not Link.can_be_had():
        return []
    with Link() as link, Server(pubd, 3, more=["--wal-sender-timeout", "1s"], host=link.here) as server:
        client = link.run(sys.executable, HERE / "vanishing.py", link.here, str(server.port), "s")
        wrong = ["a client of another host doesn't stream"] * (client.stdout.readline() != "streams\n")
        time.sleep(1.5)
        early, late = Connection(server.port, host=link.here), Connection(server.port, host=link.here)
        wrong += ["a client that answers is lost"] * (not is_refused(early, "s", "55006"))
        link.cut()
        late.start_when_free("s")
        for each in (early, late):
            each.close()
        client.kill()
        client.communicate()
        # It listens where others than this host may come.
        return wrong + server.end([f"pubd: everyone may connect at {link.here}:0: --passwords asks for passwords"])


def is_refused(connection, slot, code):
    try:
        connection.start(slot)
        return False
    except Refused as refused:
        return refused.args[0] == code


def statuses_that_ask_cost_no_memory(pubd, subcat):
    """A million of a client that reads nothing meanwhile take no more memory than ten thousand, and each gets its keepalive."""
    few, many = (peak_of_statuses(pubd, count) for count in (10_000, 1_000_000))
    wrong = [each for each in (few, many) if isinstance(each, str)]
    return wrong or [f"a million take {many} KiB, and ten thousand {few}"] * (many > few + 4096)


def peak_of_statuses(pubd, count):
    """The most memory in KiB, or what is wrong."""
    with Server(pubd, 1) as server:
        client = Connection(server.port)
        client.create("s")
        client.start("s")
        for _ in range(count // 1000):
            client.socket.sendall(status(FIRST, asks=True) * 1000)
        due = keepalive(FIRST) * count
        got = bytearray(client.bytes.read(len(due)))
        each = len(due) // count
        for at in range(each - 9, each - 1):
            got[at::each] = bytes(len(got[at::each]))
        peak = server.peak()
        client.close()
        wrong = server.end() + ["some statuses get no keepalive"] * (got != due)
        return wrong[0] if wrong else peak


def a_broken_connection_leaves_the_others(pubd, subcat):
    """One of two is broken off within a transaction: the other gets it whole, and so does the broken one's slot, again."""
    with Server(pubd, 3, inserts(5000, 5000), awaited=2) as server:
        broken, whole = Connection(server.port), Connection(server.port)
        for slot, connection in (("a", broken), ("b", whole)):
            connection.create(slot)
            connection.start(slot)
        messages = broken.messages(1)
        for _ in range(100):
            next(messages)
        broken.break_off()
        due = list(whole.messages(1))
        whole.close()
        again = Connection(server.port)
        again.start_when_free("a")
        got = list(again.messages(1))
        again.close()
        wrong = ["the transaction isn't whole"] * (len(due) != 5003) + ["it isn't sent whole again"] * (got != due)
        return wrong + server.end()


def a_slow_reader_holds_up_nobody(pubd, subcat):
    """One that reads nothing for seconds, and whose socket is full, holds up no commit and no other reader, and gets it all."""
    rows = 6000
    with Server(pubd, 2, inserts(rows, name="n" * 2000), awaited=2) as server:
        slow, eager = Connection(server.port, receives=4096), Connection(server.port)
        for slot, connection in (("slow", slow), ("eager", eager)):
            connection.create(slot)
            connection.start(slot)
        due = list(eager.messages(rows))
        eager.close()
        time.sleep(2)
        got = list(slow.messages(rows))
        slow.close()
        return ["the slow reader got something else"] * (got != due) + server.end()


def a_transaction_that_is_too_large_ends_its_stream(pubd, subcat):
    """One that needs all chunks of a stream is sent; one of a row more ends the stream after it, also where it is asked for again."""
    rows, long = 2 * CHUNKS, "n" * 7900
    more = [f"insert T public.item ({k},'{long}',7)" for k in range(rows + 1, 2 * rows + 2)]
    with Server(pubd, 2, [*inserts(rows, rows, long), "begin T", *more, "commit T 9"], awaited=1) as server:
        wrong = []
        for attempt in ("at first", "again"):
            client = Connection(server.port)
            if attempt == "at first":
                client.create("s")
            client.start_when_free("s")
            sent, code = len(list(client.messages(1))), client.refusal()
            client.close()
            wrong += [f"{attempt}: {sent} messages are sent, and then it ends by {code}"] * ((sent, code) != (rows + 3, "53400"))
        full = f"closed: transactions in progress fill the chunks of its stream, and take {CHUNKS + 1}: set chunks in [server]"
        return wrong + server.end(ended=[f"pubd: connection {number} {full}" for number in (1, 2)], waited=True)


def the_memory_of_streams_is_told_in_bytes(pubd, subcat):
    """By a word of the command line, in the place of the configuration's chunks: in twice as much a larger transaction is sent, in the
    least its stream ends."""
    rows, long = 2 * CHUNKS + 1, "n" * 7900
    wrong = []
    for size, is_enough in ((f"{2 * CHUNKS * 16}kB", True), ("2MB", True), ("64", False)):
        with Server(pubd, 1, inserts(rows, rows, long), awaited=1, more=["--logical-decoding-work-mem", size]) as server:
            client = Connection(server.port)
            client.create("s")
            client.start("s")
            came = len(list(client.messages(1))) if is_enough else client.refusal()
            client.close()
            wrong += [f"{size}: {came} came"] * (came != (rows + 3 if is_enough else "53400"))
            # How many chunks the rest takes hangs on how far the script has come.
            wrong += server.end(ended=[] if is_enough else None, waited=True)
    return wrong


def two_followers_print_what_a_script_commits(pubd, subcat):
    """100 transactions on a script's thread, followed from two slots, and a line after them that is refused."""
    count = 100
    with Server(pubd, 2, [*inserts(count), "commit T 101"], awaited=2) as server:
        words = [[subcat, "--create", f"127.0.0.1:{server.port}", slot, "0/0", "p", str(count)] for slot in ("s", "t")]
        followers = [subprocess.Popen(each, stdout=subprocess.PIPE, text=True) for each in words]
        printed = [follower.communicate()[0] for follower in followers]
        wrong = [f"follower {at} prints something else" for at, text in enumerate(printed, 1) if text != printed_of_inserts(count)]
        return wrong + server.end(refused=[f"{server.script} {3 * count + 1} V1 no transaction of this name is in progress"])


def a_startup_of_many_parameters_is_answered(pubd, subcat):
    """As many as a startup has room for."""
    with Server(pubd, 1) as server:
        client = Connection(server.port, says_nothing=True)
        startup = STARTUP[:-1]
        startup += b"p\0\0" * ((LONGEST_STARTUP - 5 - len(startup)) // 3) + b"\0"
        client.socket.sendall(struct.pack(">I", len(startup) + 4) + startup)
        client.answers()
        client.close()
        return server.end()


# What takes a minute of pauses: it runs beside all others.
LONG = [
    nobody_learns_of_users_by_time,
    cuts_and_kills_lose_and_repeat_nothing,
    cuts_and_kills_lose_and_repeat_no_message,
    cuts_and_kills_copy_each_row_once,
    cuts_and_kills_lose_and_repeat_no_line_of_json,
    a_silent_server_is_asked_and_then_lost,
    an_end_takes_ten_seconds,
    who_acknowledges_at_the_end_is_heard_out,
    who_reads_no_answer_before_its_startup_is_let_go,
    a_slow_reader_of_the_page_holds_up_nobody,
    a_log_longer_than_its_records_goes_on,
]
# What cache_service holds: it takes the place of subcat.
OF_CACHES = [a_cache_holds_what_was_committed, a_cache_holds_up_nothing_that_it_is_not_sent, another_system_is_refused_by_a_cache]
ALL = [
    a_conversation_goes_frame_by_frame,
    an_extended_query_is_refused_and_its_session_goes_on,
    a_frame_of_an_extended_query_has_its_bounds,
    a_stream_takes_no_extended_query,
    a_stream_tells_where_it_is,
    a_start_ahead_of_its_slot_is_refused,
    a_copy_and_its_stream_have_each_row_once,
    what_cannot_be_copied_is_refused,
    a_copy_is_printed_as_one_transaction,
    what_a_copy_asks_for_has_to_be_there,
    a_client_sees_clocks_of_its_own_time,
    a_follower_tells_the_time_whatever_its_server_tells,
    nothing_is_lost_with_connections,
    a_descriptor_that_is_not_to_be_had_costs_one_connection,
    a_thread_that_is_not_to_be_had_costs_one_connection,
    a_silent_client_is_asked_and_then_lost,
    a_client_whose_link_is_cut_is_lost,
    statuses_that_ask_cost_no_memory,
    a_broken_connection_leaves_the_others,
    a_slow_reader_holds_up_nobody,
    a_transaction_that_is_too_large_ends_its_stream,
    the_memory_of_streams_is_told_in_bytes,
    a_transaction_that_is_too_large_is_passed_once_it_is_undone,
    a_stream_whose_chunks_run_short_is_told_of,
    a_log_that_is_nearly_full_is_told_of,
    a_small_log_never_fills,
    a_slot_that_lags_holds_the_log,
    a_slot_that_holds_too_much_is_given_up,
    two_followers_print_what_a_script_commits,
    sixteen_streams_tell_the_same_of_eight_scripts,
    sixteen_clients_at_sixteen_slots,
    each_line_is_answered_as_it_comes,
    a_driven_server_ends_with_its_input_and_its_connections,
    a_driven_server_ends_with_its_input,
    a_bad_line_is_answered_like_any_other,
    texts_have_escapes_and_commits_the_time,
    a_wait_has_its_time,
    lines_that_steer_pass_one_that_waits,
    words_of_the_command_line_are_read,
    a_password_becomes_the_line_of_its_user,
    a_name_or_password_that_is_none_is_refused,
    subcat_proves_its_password,
    a_password_stands_in_a_file,
    a_user_has_files_of_its_own,
    a_password_is_proved_on_each_connection,
    subcat_goes_on_only_with_a_server_that_knows_its_password,
    nonces_are_new,
    subcat_proves_its_password_to_postgresql,
    closed_descriptors_are_nobody_s,
    nobody_waits_for_a_reader_of_what_is_told,
    a_stream_is_held_and_let_go,
    a_connection_is_cut_after_a_byte,
    a_client_is_asked_and_awaited,
    a_server_ends_in_order,
    a_script_steers_too,
    what_runs_is_told,
    messages_go_where_they_are_asked_for,
    an_acknowledgement_holds_over_a_close,
    an_acknowledgement_holds_over_a_blocked_write,
    restarts_lose_and_repeat_nothing,
    cuts_do_not_show,
    pauses_grow_and_begin_again,
    a_refusal_for_good_ends_it,
    a_transaction_that_ends_where_it_starts_ends_it,
    an_output_of_others_is_left_alone,
    an_output_of_the_other_form_is_left_alone,
    lines_of_json_tell_what_a_script_did,
    lines_of_json_tell_what_a_server_sends,
    lines_of_json_tell_when_they_were_sent,
    lines_of_json_tell_a_table_as_it_was,
    a_refusal_without_a_reason_is_one_all_the_same,
    what_a_server_says_is_one_line,
    quotes_stand_in_names_and_end_none,
    a_startup_of_many_parameters_is_answered,
    a_startup_has_its_time,
    as_many_are_served_as_may_be,
    a_client_too_many_is_heard_out,
    why_a_connection_is_not_taken_is_told,
    who_reads_nothing_any_more_is_let_go,
    a_server_that_was_stopped_goes_on,
    a_stream_that_begins_as_its_server_ends_is_whole,
    a_signal_ends_a_server_in_order,
    a_held_stream_is_not_cut_for_silence,
    a_drop_that_waits_ends_with_its_client,
    a_client_that_says_nothing_is_asked_for_by_the_system,
    what_is_told_of_an_address_is_bounded,
    an_end_is_told_with_its_cause,
    only_what_is_asked_for_is_told,
    a_refusal_is_told_with_what_was_asked,
    a_refusal_names_what_it_is_of,
    places_of_dropped_slots_come_back,
    as_many_slots_and_streams_as_are_told,
    a_namesake_begins_where_it_is_made,
    a_right_password_lets_its_user_in,
    psql_asks_for_a_password_and_gives_it,
    passwords_are_read_again,
    a_user_has_the_rights_of_its_line,
    strangers_shut_nobody_out,
    hostile_exchanges_let_nobody_in,
    a_word_that_is_none_is_told,
    a_column_of_no_type_is_named,
    acknowledgements_follow_what_was_printed,
    messages_are_asked_for_by_an_option,
    questions_are_answered_where_they_may_be,
    questions_are_refused_where_they_may_not_be,
    texts_near_questions_are_refused,
    a_slot_is_dropped_once_its_stream_has_ended,
    another_system_is_refused_by_an_output,
    another_system_is_refused_within_a_run,
    a_start_that_lies_ahead_ends_it,
    a_system_is_chosen_at_each_start,
    an_output_that_is_taken_away_ends_it,
    an_output_that_takes_nothing_for_now_is_written_again,
    a_follower_that_is_stopped_goes_on,
    kills_lose_nothing_that_was_answered,
    kills_leave_a_beginning_of_what_was_answered_from_memory,
    slots_stand_over_each_end,
    slots_stand_over_kills,
    slots_stay_their_owners,
    a_slot_that_was_given_up_stays_so,
    rows_stand_over_kills,
    commits_from_memory_stand_over_an_end,
    a_small_log_in_a_folder_never_fills,
    a_full_disk_refuses_commits_and_loses_none,
    a_file_at_its_limit_refuses_commits_and_loses_none,
    a_file_that_is_cut_anywhere_has_a_beginning,
    a_damaged_byte_is_told_or_ends_the_log,
    a_folder_of_another_log_is_refused,
    a_folder_is_made_and_has_one_server,
    a_file_that_is_no_log_is_refused,
]
