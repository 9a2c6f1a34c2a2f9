-- What wrk asks: how many requests at once, a path, the credentials in base64, and a body.
function init(words)
    local count = tonumber(words[1])
    wrk.method = "POST"
    wrk.path = words[2]
    wrk.headers["Authorization"] = "Basic " .. words[3]
    wrk.headers["Content-Type"] = "application/x-www-form-urlencoded"
    wrk.body = words[4]
    if count > 1 then
        local many = string.rep(wrk.format(), count)
        request = function()
            return many
        end
    end
end
