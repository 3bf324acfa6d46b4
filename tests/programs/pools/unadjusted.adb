--  The Adjust of an object fails: the object is gone, and its block stays taken (RM 4.8, 7.6.1).
with Ada.Finalization; use Ada.Finalization;
with Ada.Text_IO;      use Ada.Text_IO;
with Block_Pools;      use Block_Pools;

procedure Unadjusted is
   type T is new Controlled with null record;

   overriding procedure Adjust (X : in out T);
   overriding procedure Finalize (X : in out T);

   procedure Adjust (X : in out T) is
   begin
      raise Constraint_Error;
   end Adjust;

   procedure Finalize (X : in out T) is
   begin
      Put_Line ("F");
   end Finalize;
begin
   declare
      P : Block_Pool (8, 1);

      type Ref is access T with Storage_Pool => P;

      C : T;
      A : Ref;
   begin
      begin
         A := new T'(C);
      exception
         when Program_Error =>
            Put_Line ("PE");
      end;
      A := new T;
   exception
      when Storage_Error =>
         Put_Line ("SE");
   end;
end Unadjusted;
