# Builds a site by Jekyll with the plugin, which makes each page by Liquid too: ruby plugin.rb SITE
#
# The last line has how many renderings were made by this engine, how many of them are another text by Liquid, and how many were Liquid's.
require_relative "plugins"
require "jekyll-bikleinu"

source, = ARGV
# what differs is printed, and why a page is Liquid's
Jekyll.logger.log_level = ENV["SHOW"] ? :debug : :warn
Dir.mktmpdir do |out|
  options = { "source" => source, "destination" => out, "disable_disk_cache" => true, "bikleinu" => { "verify" => true } }
  site = Jekyll::Site.new(Jekyll.configuration(options.merge("plugins" => plugins_of(source))))
  site.process
  puts JekyllBikleinu.engine(site).counts.values_at(:own, :differing, :others).join(" ")
end
