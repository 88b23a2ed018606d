require "jekyll"
require "tmpdir"

# A site's plugins of those that are here, and the tag `seo`, which sites expect without naming it.
def plugins_of(source)
  config = Jekyll::Configuration.new.read_config_file("#{source}/_config.yml")
  named = [*config["plugins"], *config["gems"]].select { |name| Gem::Specification.any? { |it| it.name == name } }
  named | ["jekyll-seo-tag"]
end
