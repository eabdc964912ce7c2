-- The verdicts of tftp-transfers(1) in Wireshark and tshark: an expert item at the frame that is refused, with its rule,
-- and at each frame of a transfer its number and verdict, as fields to filter by. docs/RECORDING.md tells more.
--
--   tshark -X lua_script:tftp-audit.lua -r boot.pcap -Y tftp_audit.rule
--   tshark -X lua_script:tftp-audit.lua -r boot.pcap -Y 'tftp_audit.verdict matches "^refused"'
--   tshark -X lua_script:tftp-audit.lua -r boot.pcap -Y 'tftp_audit.accused matches "^server"'
--
-- It judges nothing: the program is run once for a recording, on its file. A live recording has no whole file yet, and is
-- audited once it is saved and opened again.

local audit = Proto("tftp_audit", "TFTP audit")

-- rules: by tools/tables
local RULES = {
    [1] = { name = "ForeignPort", says = "each datagram of a capture is at the transfer's port of the named end, and at the service port it is the client's",
        whose = "RFC 1350, section 4, and this project's premise that a capture has one transfer" },
    [2] = { name = "WrongPort", says = "requests go to the service port of one host, and everything else to where something came from",
        whose = "RFC 1350, section 4" },
    [3] = { name = "StrayAnswer", says = "what goes to an endpoint other than the two of the transfer is ERROR 5",
        whose = "RFC 1350, section 4" },
    [4] = { name = "NoRequest", says = "a capture begins with the client's request",
        whose = "this project's premise that a capture has the whole transfer" },
    [5] = { name = "Malformed", says = "each payload of the transfer spells a packet",
        whose = "RFC 1350, section 5, and RFC 2347; that option names are not empty and differ, and that mode mail is refused, is this project's profile" },
    [6] = { name = "WrongKind", says = "the client of a read sends ACKs, of a write DATA, and the server the other, and never a request",
        whose = "RFC 1350, sections 2 and 4, and RFC 2347" },
    [7] = { name = "AfterError", says = "an ERROR is the last that an end says, though it may say it again",
        whose = "RFC 1350, section 7" },
    [8] = { name = "RequestChanged", says = "a request that is repeated says the same",
        whose = "this project's premise that a capture has one transfer" },
    [9] = { name = "RequestAfterStart", says = "a client that has gone on does not ask again",
        whose = "this project's premise that a capture has one transfer" },
    [10] = { name = "ReplyChanged", says = "the first answer tells whether options were agreed, for good",
        whose = "RFC 2347, Negotiation Protocol" },
    [11] = { name = "OackEmpty", says = "an OACK agrees to an option at least",
        whose = "RFC 2347, Negotiation Protocol" },
    [12] = { name = "MulticastAgreed", says = "multicast is not agreed",
        whose = "this project's profile: RFC 2090 is outside of it" },
    [13] = { name = "OptionNotRequested", says = "an OACK has only what was asked for",
        whose = "RFC 2347, Negotiation Protocol" },
    [14] = { name = "OptionOutsideProfile", says = "what is agreed is blksize, timeout, tsize or windowsize",
        whose = "this project's profile: it knows the options of RFC 2348, 2349 and 7440" },
    [15] = { name = "OptionValue", says = "what is agreed may answer what was asked: a block size or window no larger, the same timeout, of a write the same size, and numbers in range",
        whose = "RFC 2348, RFC 2349 and RFC 7440, section 3" },
    [16] = { name = "OackChanged", says = "an OACK that is repeated says the same",
        whose = "RFC 2347: options are negotiated once" },
    [17] = { name = "OackAfterStart", says = "a server that has sent a block of a read does not agree to options any more",
        whose = "RFC 2347, Negotiation Protocol" },
    [18] = { name = "NotStarted", says = "a sender begins once it has its go: ACK 0 or an OACK on a write, ACK 0 for the OACK on a read",
        whose = "RFC 1350, section 4, and RFC 2347, Negotiation Protocol" },
    [19] = { name = "BlockZero", says = "blocks are numbered from 1",
        whose = "RFC 1350, section 5" },
    [20] = { name = "BeyondBlock65535", says = "a transfer has at most 65,535 blocks",
        whose = "this project's profile: the block number of RFC 1350, section 5, has two bytes, and no RFC says what comes after the last" },
    [21] = { name = "BlockLength", says = "each block but the last is whole, and the last is shorter, as long as an agreed size leaves it",
        whose = "RFC 1350, section 6, RFC 2348, and RFC 2349 for the size" },
    [22] = { name = "WindowOverrun", says = "no block is more than a window above the last one acknowledged",
        whose = "RFC 1350, section 2 (lock step), and RFC 7440, section 4" },
    [23] = { name = "BlockSkipped", says = "a sender sends its blocks one after another",
        whose = "RFC 1350, section 5, and RFC 7440, section 4" },
    [24] = { name = "GoneBack", says = "in lock step a sender does not send an earlier block again",
        whose = "RFC 1350, section 2, as RFC 1123, section 4.2.3.1, has it" },
    [25] = { name = "BlockChanged", says = "a block that is repeated has the same bytes",
        whose = "RFC 1350, section 2" },
    [26] = { name = "AckAhead", says = "an ACK says that its block and all before it came",
        whose = "RFC 1350, section 2, and RFC 7440, section 4" },
    [27] = { name = "AckZero", says = "ACK 0 answers an OACK, or the request of a write",
        whose = "RFC 1350, section 4, and RFC 2347, Negotiation Protocol" },
}
-- rules: end
local PLACES = { { 1, "not named", 0 }, { 2, "client", 1 }, { 3, "server", 2 }, { 4, "between", 3 } }
local FIRSTS = { { 1, "nothing", 0 }, { 2, "block 0", 1 }, { 3, "block 1", 2 } }
-- The rule that too many blocks break, and what is said of a refusal that is judged by what comes after them.
local BEYOND = 20
local EACH_ALONE = "both ends have one address, and where block numbers begin again each is judged alone"
local IS_WINDOWS = package.config:sub(1, 1) == "\\"

audit.prefs.program = Pref.string("Program", "tftp-transfers", "The program tftp-transfers, where it is not on the path")
audit.prefs.service = Pref.string("Service ports", "", "Ports to which requests go, beside 69, with spaces between")
audit.prefs.place = Pref.enum("Recorded at", 0, "At which end recordings were made, or between the ends", PLACES, false)
audit.prefs.rollover = Pref.enum("After block 65535", 0, "What comes after block 65535", FIRSTS, false)
audit.prefs.file = Pref.string("File", "", "The recording's file, where it is not found by itself")

local fields = {
    transfer = ProtoField.uint32("tftp_audit.transfer", "Transfer", base.DEC),
    place = ProtoField.string("tftp_audit.place", "Place"),
    verdict = ProtoField.string("tftp_audit.verdict", "Verdict"),
    rule = ProtoField.uint32("tftp_audit.rule", "Rule", base.DEC),
    name = ProtoField.string("tftp_audit.rule.name", "Rule's name"),
    says = ProtoField.string("tftp_audit.rule.says", "Rule"),
    whose = ProtoField.string("tftp_audit.rule.whose", "Whose rule"),
    accused = ProtoField.string("tftp_audit.accused", "Accused"),
    doubt = ProtoField.string("tftp_audit.doubt", "Doubt"),
}
audit.fields = fields

local experts = {
    refused = ProtoExpert.new("tftp_audit.refused", "TFTP: unlawful", expert.group.PROTOCOL, expert.severity.ERROR),
    doubtful = ProtoExpert.new("tftp_audit.doubtful", "TFTP: doubtful", expert.group.PROTOCOL, expert.severity.WARN),
    failed = ProtoExpert.new("tftp_audit.failed", "TFTP audit failed", expert.group.PROTOCOL, expert.severity.WARN),
}
audit.experts = experts

local udp_length = Field.new("udp.length")

-- What is known of the open recording; nil before the program has run.
local known

-- A word as the shell takes it.
local function quoted(word)
    if IS_WINDOWS then
        return '"' .. word:gsub('"', '""') .. '"'
    end
    return "'" .. word:gsub("'", "'\\''") .. "'"
end

-- What a command writes, in lines, and how it ended.
local function lines_of(command)
    local lines, pipe = {}, io.popen(command)
    if not pipe then
        return lines, nil
    end
    for line in pipe:lines() do
        lines[#lines + 1] = line
    end
    local _, _, code = pipe:close()
    return lines, code
end

-- Whether a file begins as pcap or pcapng does.
local function is_recording(path)
    local file = io.open(path, "rb")
    local begins = file and file:read(4) or ""
    if file then
        file:close()
    end
    return begins == "\xa1\xb2\xc3\xd4" or begins == "\xd4\xc3\xb2\xa1" or begins == "\xa1\xb2\x3c\x4d"
        or begins == "\x4d\x3c\xb2\xa1" or begins == "\x0a\x0d\x0d\x0a"
end

-- The recording among the files that this process has open: no call of Wireshark's tells its name.
local function open_file()
    if IS_WINDOWS then
        return nil
    end
    local command = "for it in /proc/$PPID/fd/*; do readlink \"$it\"; done 2>/dev/null"
    local listed = lines_of(command)
    if #listed == 0 then
        listed = lines_of("lsof -p $PPID -Fn 2>/dev/null | sed -n s/^n//p")
    end
    for _, path in ipairs(listed) do
        if path:sub(1, 1) == "/" and is_recording(path) then
            return path
        end
    end
    return nil
end

local script_file = ...

-- The file that is named by the preference, as the script's argument or in the environment, or else the open one.
local function recording_file()
    if audit.prefs.file ~= "" then
        return audit.prefs.file
    end
    return script_file or os.getenv("TFTP_AUDIT_FILE") or open_file()
end

-- The program with its words for a recording.
local function call(words, path)
    local command = { quoted(audit.prefs.program), words }
    for port in audit.prefs.service:gmatch("%d+") do
        command[#command + 1] = "--service " .. port
    end
    command[#command + 1] = "-- " .. quoted(path)
    command[#command + 1] = IS_WINDOWS and "2>NUL" or "2>/dev/null"
    return table.concat(command, " ")
end

-- The strings of a list of JSON.
local function strings_of(list)
    local found = {}
    for text in list:gmatch('"(.-[^\\])"') do
        found[#found + 1] = text:gsub('\\(["\\/])', "%1")
    end
    return found
end

-- An address and a port as the program writes them.
local function endpoint(address, port)
    local host = tostring(address)
    return (host:find(":", 1, true) and "[" .. host .. "]" or host) .. ":" .. port
end

-- The end that a row accuses, if it accuses one.
local function accused_of(line)
    local role, host, port = line:match('"accused":{"role":"(.-)","host":"(.-)","port":(%d+)}')
    return role and role .. " " .. endpoint(host, port)
end

-- A row of verdicts.
local function row_of(line)
    local verdict = line:match('"verdict":"(.-)"')
    return {
        number = tonumber(line:match('"number":(%d+)')), place = line:match('"place":"(.-)"'), verdict = verdict,
        frame = tonumber(line:match('"place":"%a+","frame":(%d+)')),
        doubts = strings_of(line:match('"doubts":%[(.*)%],"ended":') or ""),
        rule = tonumber(verdict and verdict:match("rule (%d+)")), accused = accused_of(line),
    }
end

-- A transfer, as the recording lists it.
local function transfer_of(line)
    return {
        number = tonumber(line:match('"number":(%d+)')), client = line:match('"client":"(.-)"'),
        first = tonumber(line:match('"first_frame":(%d+)')), last = tonumber(line:match('"last_frame":(%d+)')),
    }
end

-- The frames of a transfer, by its text.
local function frames_of(path, number)
    local frames = {}
    for _, line in ipairs(lines_of(call("text " .. number .. " client", path))) do
        local frame = line:match("^# frame (%d+)")
        if frame then
            frames[tonumber(frame)] = true
        end
    end
    return frames
end

-- Where two transfers of one client's port overlap, which frames each has is asked for.
local function tell_apart(path, of_client)
    for place = 2, #of_client do
        local before, now = of_client[place - 1], of_client[place]
        if before.last >= now.first then
            before.frames = before.frames or frames_of(path, before.number)
            now.frames = now.frames or frames_of(path, now.number)
        end
    end
end

-- The row of a transfer at a place where numbers begin again.
local function row_by_rollover(path, number, place, first)
    for _, line in ipairs(lines_of(call("check --json --end " .. place .. " --rollover " .. first, path))) do
        local row = row_of(line)
        if row.number == number then
            return row
        end
    end
end

-- A row that refuses too many blocks is told by what comes after block 65535, where that is said.
local function told_by_rollover(path, row)
    local first = ({ [1] = 0, [2] = 1 })[audit.prefs.rollover]
    if not first or row.rule ~= BEYOND then
        return row
    end
    local is_both = row.place == "both"
    local it = row_by_rollover(path, row.number, is_both and "client" or row.place, first)
    if is_both and it and it.verdict:match("^accepted ") then
        it = row_by_rollover(path, row.number, "server", first)
    end
    if not it then
        return row
    end
    it.place = row.place
    if is_both and it.rule then
        it.accused = nil
        table.insert(it.doubts, EACH_ALONE)
    end
    return it
end

-- The program is run, and what it says is kept by the transfer's number, and the transfers by the client's address.
local function asked(path)
    local it = { rows = {}, clients = {}, path = path }
    local place = ({ [1] = " --end client", [2] = " --end server", [3] = " --end between" })[audit.prefs.place] or ""
    local lines, code = lines_of(call("check --json" .. place, path))
    for _, line in ipairs(lines) do
        local row = told_by_rollover(path, row_of(line))
        it.rows[row.number] = it.rows[row.number] or {}
        table.insert(it.rows[row.number], row)
    end
    if #lines == 0 then
        it.failed = code == 127 and "the program " .. audit.prefs.program .. " is not found"
            or "tftp-transfers finds no transfer in " .. path
    elseif code == 2 then
        it.failed = "tftp-transfers tells that the recording is not there whole: run it on " .. path
    end
    for _, line in ipairs(lines_of(call("list --json", path))) do
        local transfer = transfer_of(line)
        it.clients[transfer.client] = it.clients[transfer.client] or {}
        table.insert(it.clients[transfer.client], transfer)
    end
    for _, of_client in pairs(it.clients) do
        tell_apart(path, of_client)
    end
    return it
end

local function knowledge()
    if known == nil then
        local path = recording_file()
        known = path and asked(path) or { rows = {}, clients = {}, failed = "the recording's file is not found" }
    end
    return known
end

-- The transfer that a frame is of.
local function transfer_at(number, ends)
    for _, it in ipairs(ends) do
        for _, transfer in ipairs(knowledge().clients[it] or {}) do
            local is_within = transfer.first <= number and number <= transfer.last
            if is_within and (transfer.frames == nil or transfer.frames[number]) then
                return transfer
            end
        end
    end
    return nil
end

-- The expert item at the frame that is refused.
local function blame(tree, row)
    local rule = RULES[row.rule]
    if not rule then
        return
    end
    tree:add(fields.rule, row.rule):set_generated()
    tree:add(fields.name, rule.name):set_generated()
    tree:add(fields.says, rule.says):set_generated()
    tree:add(fields.whose, rule.whose):set_generated()
    local is_doubtful = #row.doubts > 0
    local words = (is_doubtful and "doubtful: " or "") .. "rule " .. row.rule .. " " .. rule.name .. ": " .. rule.says
    tree:add_proto_expert_info(is_doubtful and experts.doubtful or experts.refused, words .. " (" .. rule.whose .. ")")
end

local function add_row(tree, row, number)
    tree:add(fields.place, row.place):set_generated()
    tree:add(fields.verdict, row.verdict):set_generated()
    if row.accused then
        tree:add(fields.accused, row.accused):set_generated()
    end
    for _, doubt in ipairs(row.doubts) do
        tree:add(fields.doubt, doubt):set_generated()
    end
    if row.frame == number then
        blame(tree, row)
    end
end

function audit.init()
    known = nil
end

function audit.dissector(buffer, pinfo, tree)
    if not udp_length() then
        return
    end
    local it, number = knowledge(), pinfo.number
    if it.failed and (it.told or number) == number then
        it.told = number
        tree:add(audit):add_proto_expert_info(experts.failed, it.failed)
    end
    local ends = { endpoint(pinfo.src, pinfo.src_port), endpoint(pinfo.dst, pinfo.dst_port) }
    local transfer = transfer_at(number, ends)
    if not transfer then
        return
    end
    local branch = tree:add(audit)
    branch:append_text(", transfer " .. transfer.number)
    branch:add(fields.transfer, transfer.number):set_generated()
    for _, row in ipairs(it.rows[transfer.number] or {}) do
        add_row(branch, row, number)
    end
end

register_postdissector(audit)

-- The rows of the open recording in a window.
local function show_rows()
    local window, numbers = TextWindow.new("TFTP audit"), {}
    for number in pairs(knowledge().rows) do
        numbers[#numbers + 1] = number
    end
    table.sort(numbers)
    window:set((knowledge().failed or knowledge().path or "") .. "\n")
    for _, number in ipairs(numbers) do
        for _, row in ipairs(knowledge().rows[number]) do
            local frame = row.frame and "frame " .. row.frame or "-"
            local told = row.accused or table.concat(row.doubts, "; ")
            window:append(table.concat({ number, row.place, frame, row.verdict, told }, "\t") .. "\n")
        end
    end
end

-- The program is run again on the open recording.
local function audit_again()
    known = nil
    reload_packets()
end

if gui_enabled() then
    register_menu("TFTP audit/Verdicts", show_rows, MENU_TOOLS_UNSORTED)
    register_menu("TFTP audit/Audit again", audit_again, MENU_TOOLS_UNSORTED)
end
