--  The Initialize of an object fails: the object is gone, and its block stays taken (RM 4.8, 7.6.1).
with Ada.Finalization; use Ada.Finalization;
with Ada.Text_IO;      use Ada.Text_IO;
with Block_Pools;      use Block_Pools;

procedure Uninitialized is
   type T is new Controlled with null record;

   overriding procedure Initialize (X : in out T);
   overriding procedure Finalize (X : in out T);

   Denied : exception;
   Fails  : Boolean := True;

   procedure Initialize (X : in out T) is
   begin
      if Fails then
         raise Denied;
      end if;
   end Initialize;

   procedure Finalize (X : in out T) is
   begin
      Put_Line ("F");
   end Finalize;
begin
   declare
      P : Block_Pool (8, 2);

      type Ref is access T with Storage_Pool => P;

      A : Ref;
   begin
      begin
         A := new T;
      exception
         when Denied =>
            Put_Line ("denied");
      end;
      Fails := False;
      A := new T;
      A := new T;
   exception
      when Storage_Error =>
         Put_Line ("SE");
   end;
end Uninitialized;
