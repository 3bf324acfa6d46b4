--  The name of the actual is evaluated (RM 4.1, 7.6): a call that it begins with is executed, null designates no object, and an exception in
--  it is that of the statement.
with Ada.Finalization; use Ada.Finalization;
with Ada.Text_IO;      use Ada.Text_IO;

procedure Names is
   type T is new Controlled with record
      N : Integer := 5;
   end record;

   type Ref is access T;

   X     : Ref;
   Calls : Integer := 0;

   function Find (K : Integer) return Ref is
   begin
      Calls := Calls + 1;
      if K = 0 then
         raise Program_Error;
      end if;
      return X;
   end Find;
begin
   begin
      Finalize (X.all);
      Put_Line ("never");
   exception
      when Constraint_Error =>
         Put_Line ("null");
   end;
   begin
      Adjust (Find (0).all);
      Put_Line ("never");
   exception
      when Program_Error =>
         Put_Line ("raised");
   end;
   X := new T;
   Finalize (X.all);
   Adjust (Find (1).all);
   Initialize (Find (2).all);
   Put_Line (Integer'Image (Calls) & Integer'Image (X.N));
end Names;
