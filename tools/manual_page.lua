-- Fits a document to pandoc's manual pages: code is bold, a link names the document it leads to, tables fit 80 columns.

-- The columns of a line after its indentation, the gap between two columns of a table, and the least width of a wrapped one.
local LINE, GAP, WRAPPED = 71, 3, 24

-- Characters that roff changes in code.
local ESCAPES = { ["\\"] = "\\e", ["-"] = "\\-", ["`"] = "\\(ga", ["'"] = "\\(aq", ["^"] = "\\(ha", ["~"] = "\\(ti" }

function Code(it)
    return pandoc.Strong(it.text)
end

function CodeBlock(it)
    local text = it.text:gsub("[\\`'^~-]", ESCAPES):gsub("%f[^\n\0]%.", "\\&.")
    return pandoc.RawBlock("man", ".RS 2\n.sp\n.nf\n" .. text .. "\n.fi\n.RE")
end

function Link(it)
    local file = it.target:gsub("#.*", "")
    if file ~= "" and file ~= pandoc.utils.stringify(it) then
        it.content:extend({ pandoc.Str(" (" .. file .. ")") })
    end
    return it.content
end

function Header(it)
    return it.level == 1 and pandoc.walk_block(it, { Str = function(word) return pandoc.Str(word.text:upper()) end }) or nil
end

-- Returns the widest text of each column of a table, and the number of the column that is the widest.
local function widths_of(rows)
    local widths, widest = {}, 1
    for _, row in ipairs(rows) do
        for column, cell in ipairs(row) do
            widths[column] = math.max(widths[column] or 1, utf8.len(pandoc.utils.stringify(cell)))
        end
    end
    for column, width in ipairs(widths) do
        widest = width > widths[widest] and column or widest
    end
    return widths, widest
end

-- Returns a row as an item of a list: its first cell, and the others below it. If these are several, each cell has its head.
local function item_of(row, head)
    local cells = row:map(function(cell, column)
        local before = (#head > 2 and #cell > 0) and { pandoc.Emph(head[column][1].content), pandoc.Str(": ") } or {}
        return pandoc.List(before) .. (#cell > 0 and cell[1].content or {})
    end)
    local tag, below = cells:remove(1), pandoc.List()
    for _, cell in ipairs(cells) do
        below:extend((#below > 0 and #cell > 0) and { pandoc.RawInline("man", "\n.br\n") } or {})
        below:extend(cell)
    end
    return { tag, { { pandoc.Plain(below) } } }
end

-- Wraps the widest column of a table that is too wide. If the other columns leave too little for that, the table becomes a list.
function Table(it)
    local simple = pandoc.utils.to_simple_table(it)
    local widths, widest = widths_of({ simple.headers, table.unpack(simple.rows) })
    local rest = LINE - GAP * (#widths - 1) + widths[widest]
    for _, width in ipairs(widths) do
        rest = rest - width
    end
    if rest < math.min(WRAPPED, widths[widest]) then
        simple.rows = pandoc.List(#widths == 2 and { simple.headers } or {}) .. simple.rows
        return pandoc.DefinitionList(simple.rows:map(function(row) return item_of(row, simple.headers) end))
    end
    widths[widest] = math.min(rest, widths[widest])
    -- The writer takes a share of 70 columns.
    simple.widths = pandoc.List(widths):map(function(width) return width / 70 end)
    return pandoc.utils.from_simple_table(simple)
end
