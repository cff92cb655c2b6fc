use crate::standins::names::set_name_in_attr_map;
