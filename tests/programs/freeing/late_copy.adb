--  An allocator with a value raises Program_Error, too, where the finalization of its collection has started
--  (RM 4.8).
with Ada.Finalization; use Ada.Finalization;
with Ada.Text_IO;      use Ada.Text_IO;

procedure Late_Copy is
begin
   declare
      type T;
      type Ref is access T;

      type T is new Controlled with record
         N : Integer := 0;
      end record;

      overriding procedure Finalize (X : in out T);

      procedure Finalize (X : in out T) is
         V : Ref;
      begin
         V := new T'(X);
         Put_Line ("made");
      exception
         when Program_Error =>
            Put_Line ("late");
      end Finalize;

      A : Ref;
   begin
      A := new T;
   end;
end Late_Copy;
