# Renders the themes in the sources of Liquid for Ruby, and writes down each page: ruby shopify.rb SOURCES OUT
#
# Each template is rendered alone, and its theme around what that made. The addresses of files are those of `bikleinu`.
require "fileutils"
require "strscan"
require_relative "values"

# What Liquid 5.14 asks of a newer strscan than Debian 12 has.
class StringScanner
  def peek_byte
    string.getbyte(pos)
  end

  def scan_byte
    byte = peek_byte
    self.pos += 1 if byte
    byte
  end
end

sources, folder = ARGV
require "#{sources}/performance/shopify/liquid"
require "#{sources}/performance/shopify/database"

module Addresses
  def asset_url(input)
    "/assets/#{input}"
  end

  def product_img_url(url, style = "small")
    super.sub("/files/shops/random_number/", "/")
  end
end
ShopFilter.prepend(Addresses)

# The object of the page's block `paginate`, which a host has in its data.
module Pages
  class << self
    attr_accessor :paginate
  end

  def []=(name, value)
    Pages.paginate = value if name == "paginate"
    super
  end
end
Liquid::Context.prepend(Pages)
Liquid::Environment.default.register_filter(ShopFilter)

FileUtils.mkdir_p(folder)
count = 0
Dir["#{sources}/performance/tests/*/*.liquid"].sort.each do |path|
  next if File.basename(path) == "theme.liquid"

  content = nil
  [path, "#{File.dirname(path)}/theme.liquid"].each do |part|
    data = { **Database.tables, "page_title" => "Page title", "template" => File.basename(path, ".liquid"), "content_for_layout" => content }
    data = data.compact
    text = Values.new.of(data)
    Pages.paginate = nil
    page = Liquid::Template.parse(File.read(part)).render(data)
    text["paginate"] = Values.new.of(Pages.paginate) if Pages.paginate
    content ||= page
    count += 1
    written = { "template" => File.read(part), "data" => text, "partials" => {}, "page" => page, "path" => "#{part} #{File.basename(path)}" }
    File.write("#{folder}/#{format('%04d', count)}.json", JSON.generate(written))
  end
end
