-- Run by neovim without a display: shows a diagnostic of vunit_lsp in a buffer that isn't saved, and runs a test by its lens. Writes what it
-- sees into the file `seen`, a line each.
local seen = io.open("seen", "w")
local function say(...)
  seen:write(string.format(...), "\n")
  seen:flush()
end

local client
local function start()
  client = vim.lsp.start_client({ name = "vunit", cmd = { os.getenv("TOP") .. "/wrappers/vunit_lsp" }, root_dir = vim.fn.getcwd() })
  vim.lsp.buf_attach_client(0, client)
end

local function wait_for(what, holds)
  if not vim.wait(60000, holds, 50) then
    say("waited for %s", what)
    vim.cmd("cquit")
  end
end

local function show(one)
  say("%d:%d-%d %s", one.lnum + 1, one.col + 1, one.end_col + 1, one.message)
end

vim.cmd("edit tb/tb_counter.vhd")
start()
local buffer = vim.api.nvim_get_current_buf()
wait_for("the server", function() return vim.lsp.buf_get_clients(buffer)[client] ~= nil end)
local count = vim.api.nvim_buf_line_count(buffer)
vim.api.nvim_buf_set_lines(buffer, count, count, false, { "-- é", "foo" })
wait_for("a diagnostic", function() return #vim.diagnostic.get(buffer) == 1 end)
show(vim.diagnostic.get(buffer)[1])
vim.api.nvim_buf_set_lines(buffer, count, count + 2, false, {})
wait_for("no diagnostic", function() return #vim.diagnostic.get(buffer) == 0 end)

local lenses = {}
wait_for("lenses", function()
  vim.lsp.buf_request(buffer, "textDocument/codeLens", { textDocument = vim.lsp.util.make_text_document_params() },
    function(_, result) lenses = result or {} end)
  return #lenses > 0
end)
for _, lens in ipairs(lenses) do
  say("lens %d %s", lens.range.start.line + 1, lens.command.title)
end
vim.lsp.buf_request(buffer, "workspace/executeCommand",
  { command = lenses[1].command.command, arguments = lenses[1].command.arguments }, function() end)
wait_for("verdicts", function() return #vim.diagnostic.get(buffer) == 3 end)
local shown = vim.diagnostic.get(buffer)
table.sort(shown, function(a, b) return a.lnum < b.lnum end)
for _, one in ipairs(shown) do
  show(one)
end
say("modified %s", tostring(vim.bo.modified))
seen:close()
vim.lsp.stop_client(client)
vim.wait(20000, function() return vim.lsp.client_is_stopped(client) end, 50)
vim.cmd("qall!")
