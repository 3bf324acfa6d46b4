--  A type of which there is no object does nothing when it is elaborated (RM 3.8).
procedure Type_Alone is
   type R is record
      N : Integer;
   end record;
begin
   null;
end Type_Alone;
