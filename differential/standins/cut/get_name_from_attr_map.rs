use crate::standins::names::get_name_from_attr_map;
